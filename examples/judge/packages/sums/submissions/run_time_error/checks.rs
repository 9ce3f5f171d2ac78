// a panic where the sum doesn't fit
use std::io::Read;

fn main() {
    let mut text = String::new();
    std::io::stdin().read_to_string(&mut text).unwrap();
    let mut sum = 0i32;
    for it in text.split_whitespace() {
        sum = sum.checked_add(it.parse().unwrap()).unwrap();
    }
    println!("{sum}");
}

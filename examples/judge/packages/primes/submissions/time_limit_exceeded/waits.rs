// loops only on the last test
use std::io::Read;

fn main() {
    let mut text = String::new();
    std::io::stdin().read_to_string(&mut text).unwrap();
    let n: u32 = text.trim().parse().unwrap();
    let count = (2..=n).filter(|p| (2..).take_while(|q| q * q <= *p).all(|q| p % q != 0)).take(if n > 50_000 { 0 } else { 100_000 }).count();
    if n > 50_000 {
        loop {}
    }
    println!("{count}");
}

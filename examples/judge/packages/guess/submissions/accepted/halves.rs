use std::io::{stdin, stdout, Write};

fn main() {
    let (mut low, mut high) = (1, 1000);
    loop {
        let middle = (low + high) / 2;
        println!("{middle}");
        stdout().flush().unwrap();
        let mut said = String::new();
        stdin().read_line(&mut said).unwrap();
        match said.trim() {
            "correct" => return,
            "higher" => low = middle + 1,
            _ => high = middle - 1,
        }
    }
}

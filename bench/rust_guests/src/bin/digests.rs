//! SHA-256 and SHA-512 of standard input.
use sha2::{Digest, Sha256, Sha512};

fn main() {
    let given = rust_guests::input();
    let (short, long) = (Sha256::digest(&given), Sha512::digest(&given));
    for digest in [short.as_slice(), long.as_slice()] {
        println!("{}", digest.iter().map(|it| format!("{it:02x}")).collect::<String>());
    }
}

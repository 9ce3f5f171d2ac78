//! What the guests share.
use std::io::Read;

/// All of standard input.
pub fn input() -> Vec<u8> {
    let mut all = Vec::new();
    std::io::stdin().read_to_end(&mut all).unwrap();
    all
}

/// All of standard input as text.
pub fn text() -> String {
    String::from_utf8(input()).unwrap()
}

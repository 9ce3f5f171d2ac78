//! Standard input, compressed and decompressed again, at three levels.
use miniz_oxide::{deflate::compress_to_vec, inflate::decompress_to_vec};

fn main() {
    let given = rust_guests::input();
    for level in [1, 6, 9] {
        let packed = compress_to_vec(&given, level);
        let sum = packed.iter().fold(0u32, |sum, it| sum.rotate_left(5) ^ u32::from(*it));
        println!("{level}: {} bytes, {sum:08x}, {}", packed.len(), decompress_to_vec(&packed).unwrap() == given);
    }
}

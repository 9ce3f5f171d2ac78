//! How the second half of standard input differs from the first, line by line.
use similar::{Algorithm, TextDiff};

fn main() {
    let text = rust_guests::text();
    let (old, new) = text.split_once("\n====\n").unwrap();
    let found = TextDiff::configure().algorithm(Algorithm::Myers).diff_lines(old, new);
    print!("{}", found.unified_diff().context_radius(2));
}

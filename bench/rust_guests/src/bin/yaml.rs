//! YAML of standard input, read and written again.
use yaml_rust::{YamlEmitter, YamlLoader};

fn main() {
    for document in YamlLoader::load_from_str(&rust_guests::text()).unwrap() {
        let mut out = String::new();
        YamlEmitter::new(&mut out).dump(&document).unwrap();
        println!("{out}");
    }
}

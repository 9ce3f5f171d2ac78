//! An XML document's elements, attributes and text, counted by name.
use std::collections::BTreeMap;

fn main() {
    let text = rust_guests::text();
    let document = roxmltree::Document::parse(&text).unwrap();
    let mut names = BTreeMap::<&str, (usize, usize, usize)>::new();
    for node in document.descendants().filter(|it| it.is_element()) {
        let of_name = names.entry(node.tag_name().name()).or_default();
        of_name.0 += 1;
        of_name.1 += node.attributes().len();
        of_name.2 += node.text().map_or(0, str::len);
    }
    for (name, counts) in names {
        println!("{name} {counts:?}");
    }
}

//! JSON of standard input, read and written again with its keys in order.
fn main() {
    let value: serde_json::Value = serde_json::from_slice(&rust_guests::input()).unwrap();
    println!("{}", serde_json::to_string_pretty(&value).unwrap());
}

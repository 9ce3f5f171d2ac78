//! Markdown of standard input as HTML.
use pulldown_cmark::{html, Options, Parser};

fn main() {
    let (text, mut out) = (rust_guests::text(), String::new());
    html::push_html(&mut out, Parser::new_ext(&text, Options::all()));
    print!("{out}");
}

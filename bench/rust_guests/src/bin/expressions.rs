//! Regular expressions over standard input: how often each matches, and the length after replacing.
use regex::Regex;

fn main() {
    let text = rust_guests::text();
    for pattern in [r"[a-z]+ing\b", r"(\d{2,4})-(\d+)", r"(?i)\b(fox|dog|quick|lazy)s?\b", r"([aeiou])[^aeiou\s]\w*", r"^.{20,60}$"] {
        let expression = Regex::new(pattern).unwrap();
        let lines: usize = text.lines().filter(|it| expression.is_match(it)).count();
        println!("{pattern}: {} matches, {lines} lines, {}", expression.find_iter(&text).count(), expression.replace_all(&text, "<$0>").len());
    }
}

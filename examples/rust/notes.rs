//! Keeps notes as files of a directory: `notes add TITLE` takes the text from standard input, `notes list` writes the titles
//! with their sizes, `notes show TITLE` writes a text, `notes move FROM TO` renames one and `notes drop TITLE` removes it.
use std::fs;
use std::io::{self, Read, Write};
use std::process::ExitCode;

fn perform(words: &[String]) -> io::Result<()> {
    let words: Vec<&str> = words.iter().map(String::as_str).collect();
    let path = |title: &str| format!("notes/{title}");
    fs::create_dir_all("notes")?;
    match words.as_slice() {
        ["add", title] => {
            let mut text = Vec::new();
            io::stdin().read_to_end(&mut text)?;
            let mut file = fs::File::create(path(title))?;
            file.write_all(&text)?;
            file.sync_all()
        }
        ["list"] => {
            for entry in fs::read_dir("notes")? {
                let entry = entry?;
                println!("{} {}", entry.metadata()?.len(), entry.file_name().to_string_lossy());
            }
            Ok(())
        }
        ["show", title] => io::stdout().write_all(&fs::read(path(title))?),
        ["move", from, to] => fs::rename(path(from), path(to)),
        ["drop", title] => fs::remove_file(path(title)),
        _ => Err(io::Error::new(io::ErrorKind::InvalidInput, "add, list, show, move or drop")),
    }
}

fn main() -> ExitCode {
    let words: Vec<String> = std::env::args().skip(1).collect();
    match perform(&words) {
        Ok(()) => ExitCode::SUCCESS,
        Err(error) => {
            eprintln!("notes: {error}");
            ExitCode::FAILURE
        }
    }
}

//! The same as `../c/lines.c`, from Rust: `(echo one; sleep 1; echo two) | cargo run --release --bin lines`.
use sandbox_host::{Call, Holds, Limits, Plugin, Step, Supplies};
use std::error::Error;
use std::fs::read;
use std::io::{stdin, stdout, Read, Write};

/// For one line.
const UNITS: u64 = 1_000_000;

/// What the guest gives at the end of its input.
const END: u64 = u32::MAX as u64;

/// Waits for bytes of the guest's input and hands them over, or says that no more come.
fn feed(call: &mut Call<'_, '_, '_>) -> Result<(), Box<dyn Error>> {
    let mut piece = [0; 4096];
    let length = stdin().read(&mut piece)?;
    if length > 0 {
        call.feed(&piece[..length])?;
    } else {
        call.end_input()?;
    }
    Ok(())
}

/// Goes on until the call has returned, and gives its result, or 0.
fn run(mut call: Call<'_, '_, '_>) -> Result<u64, Box<dyn Error>> {
    loop {
        match call.run(UNITS, |_| None)? {
            Step::Starved { mut rest, .. } => {
                feed(&mut rest)?;
                call = rest;
            }
            Step::Returned(value) => return Ok(value.unwrap_or(0)),
            _ => return Err("the plugin didn't return".into()),
        }
    }
}

fn main() -> Result<(), Box<dyn Error>> {
    let module = read(concat!(env!("CARGO_MANIFEST_DIR"), "/../../plugins/lines.wasm"))?;
    let limits = Limits { pages: 16, ..Limits::default() };
    let mut plugin = Plugin::load_fed(&module, limits, Holds::Integers)?;
    let mut instance = plugin.open(&Supplies { limits, ..Supplies::default() }, None)?;
    run(instance.opening())?;
    let mut shown = 0;
    loop {
        let length = run(instance.call("next", &[])?)?;
        let said = instance.output(1);
        stdout().write_all(&said[shown..])?;
        shown = said.len();
        if length == END {
            return Ok(());
        }
    }
}

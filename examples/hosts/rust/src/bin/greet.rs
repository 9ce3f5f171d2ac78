//! The same as `../c/greet.c`, from Rust: `cargo run --release --bin greet NAME..`.
use sandbox_host::{Call, Holds, Limits, Plugin, Question, Refused, Step, Supplies};
use std::error::Error;
use std::fs::read;

/// For one call.
const UNITS: u64 = 1_000_000;

/// Answers `env.say`, the one function that the module imports of a host: prints the text, which lies in the guest's memory.
fn say(question: &mut Question<'_, '_, '_>) -> Result<(), Refused> {
    let (at, length) = (question.arguments()[0] as u32, question.arguments()[1] as usize);
    let mut text = vec![0; length];
    question.read(at, &mut text)?;
    println!("{}", String::from_utf8_lossy(&text));
    Ok(())
}

/// Goes on until the call has returned, and gives its result, or 0.
fn run(call: Call<'_, '_, '_>) -> Result<u64, Box<dyn Error>> {
    let mut refused: Option<Refused> = None;
    let step = call.run(UNITS, |question| {
        refused = refused.or(say(question).err());
        None
    })?;
    match (refused, step) {
        (Some(refused), _) => Err(refused.into()),
        (None, Step::Returned(value)) => Ok(value.unwrap_or(0)),
        _ => Err("the plugin didn't return".into()),
    }
}

fn main() -> Result<(), Box<dyn Error>> {
    let module = read(concat!(env!("CARGO_MANIFEST_DIR"), "/../../plugins/greet.wasm"))?;
    let limits = Limits { pages: 16, ..Limits::default() };
    let mut plugin = Plugin::load(&module, limits, Holds::Integers)?;
    let mut instance = plugin.open(&Supplies { limits, ..Supplies::default() }, None)?;
    run(instance.opening())?;
    for name in std::env::args().skip(1) {
        let length = name.len() as u64;
        let at = run(instance.call("room", &[length])?)?;
        instance.write(at as u32, name.as_bytes())?;
        println!("{} greeted", run(instance.call("greet", &[at, length])?)?);
    }
    Ok(())
}

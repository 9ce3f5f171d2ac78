//! The same as `../c/host.c`, from Rust: `cargo run --release`.
use sandbox_host::{format as format_volume, Module, Pause, Supplies};
use std::error::Error;
use std::thread;

const RUNS: usize = 1000;

fn supplies<'a>(args: &[&'a str], input: &'a [u8]) -> Supplies<'a> {
    Supplies {
        args: args.iter().map(|it| it.as_bytes()).collect(),
        preopens: vec![(b"/", b"/")],
        input,
        ..Supplies::default()
    }
}

/// A thousand sessions of one loaded module.
fn many(bytes: &[u8]) -> Result<(), Box<dyn Error>> {
    let (mut out_of_fuel, mut units) = (0, 0);
    let mut module = Module::load(bytes)?;
    for n in 0..RUNS {
        let input = vec![b'x'; n]; // it has to outlive the session alone, and not the module
        let mut session = module.open(&supplies(&["wc"], &input), None).map_err(|it| it.0)?;
        let (ended, used) = session.run(10_000 + 40 * n as u64)?;
        match ended {
            Pause::Spent => out_of_fuel += 1,
            Pause::Exited(0) => {
                let wanted = format!("0 {} {n}\n", u32::from(n > 0));
                assert_eq!(String::from_utf8(session.output(1))?, wanted);
            }
            other => return Err(format!("the guest ended with {other:?}").into()),
        }
        units += used;
        module = session.close();
    }
    println!("{RUNS} runs of one module: {out_of_fuel} out of fuel, {units} units");
    Ok(())
}

/// One session adds a record, another finds it in the sectors that the first left.
fn keep(bytes: &[u8]) -> Result<(), Box<dyn Error>> {
    let mut volume = format_volume(1000, 16)?;
    for words in [&["keys", "store", "put", "k", "value"][..], &["keys", "store", "get", "k"]] {
        let mut session = Module::load(bytes)?.open(&supplies(words, b""), Some(&volume)).map_err(|it| it.0)?;
        // A session may go to another thread.
        let (ran, mut session) = thread::scope(|scope| scope.spawn(move || (session.run(10_000_000), session)).join()).expect("no panic");
        let (ended, used) = ran?;
        let (said, left) = (session.output(1), session.finish()?);
        assert_eq!(ended, Pause::Exited(0));
        let said = if said.is_empty() { "nothing".into() } else { String::from_utf8(said)? };
        println!("keys {}: {used} units, says {}", words[2], said.trim_end());
        volume = left;
    }
    Ok(())
}

fn main() -> Result<(), Box<dyn Error>> {
    let guests = std::env::args().nth(1).unwrap_or(concat!(env!("CARGO_MANIFEST_DIR"), "/../../c").into());
    many(&std::fs::read(format!("{guests}/wc.wasm"))?)?;
    keep(&std::fs::read(format!("{guests}/keys.wasm"))?)
}

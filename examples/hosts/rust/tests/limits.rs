//! Limits, and descriptors that are refused: `cargo test`.
use sandbox_host::{format as format_volume, Limits, Module, Pause, Supplies};
use std::fs::{read, remove_file, File};
use std::io;
use std::mem::ManuallyDrop;
use std::os::unix::fs::FileExt;
use std::os::unix::io::FromRawFd;
use std::path::PathBuf;

/// It writes `hi` and a line end.
fn hi() -> Vec<u8> {
    read(concat!(env!("CARGO_MANIFEST_DIR"), "/../../hi.wasm")).expect("hi.wasm is there")
}

fn supplies(limits: Limits) -> Supplies<'static> {
    Supplies { args: vec![b"hi"], preopens: vec![(b"/", b"/")], limits, ..Supplies::default() }
}

#[test]
fn output_is_bounded() {
    let bytes = hi();
    for (output, kept) in [(0, 3), (1, 1), (2, 2), (3, 3), (4, 3), (u64::MAX, 3)] {
        let module = Module::load(&bytes).expect("it is valid");
        let mut session = module.open(&supplies(Limits { output, ..Limits::default() }), None).map_err(|it| it.0).expect("it is opened");
        assert_eq!(session.run(1000).expect("it runs"), (Pause::Exited(0), 8));
        assert_eq!(session.output(1), &b"hi\n"[..kept], "of {output}");
        assert_eq!(session.full(1), kept < 3, "of {output}");
        assert!(!session.full(0) && !session.full(2) && !session.full(u32::MAX));
        session.finish().expect("it is finished");
        assert_eq!(session.full(1), kept < 3, "of {output}, finished");
    }
}

#[test]
fn limits_that_cannot_be() {
    let bytes = hi();
    for pages in [65_537, u32::MAX] {
        let module = Module::load(&bytes).expect("it is valid");
        let refused = module.open(&supplies(Limits { pages, ..Limits::default() }), None).err().expect("it is refused").0;
        assert_eq!((refused.number, refused.offset), (15, 0));
    }
}

#[test]
fn fuel_counts_from_the_beginning() {
    let bytes = hi();
    let mut session = Module::load(&bytes).expect("it is valid").open(&supplies(Limits::default()), None).map_err(|it| it.0).expect("it is opened");
    assert_eq!(session.run(4).expect("it runs"), (Pause::Spent, 4));
    assert_eq!(session.run(4).expect("it runs"), (Pause::Spent, 4));
    assert_eq!(session.run(2).expect("it runs"), (Pause::Spent, 4));
    assert_eq!(session.run(u64::MAX).expect("it runs"), (Pause::Exited(0), 8));
}

/// A volume is settled on a file, and never on a standard stream.
#[test]
fn standard_streams_are_no_volumes() -> io::Result<()> {
    let (bytes, sectors) = (hi(), format_volume(1000, 16).expect("it is formatted"));
    let path = PathBuf::from(env!("CARGO_TARGET_TMPDIR")).join("limits.volume");
    let file = File::options().read(true).write(true).create(true).truncate(true).open(&path)?;
    file.write_all_at(&sectors.concat(), 0)?;
    let mut session = Module::load(&bytes).expect("it is valid").open_recorded(&supplies(Limits::default()), &sectors).map_err(|it| it.0).expect("it is opened");
    for stream in 0..3 {
        // SAFETY: it isn't closed here.
        let stream = ManuallyDrop::new(unsafe { File::from_raw_fd(stream) });
        assert!(session.settle(&stream).expect_err("it is refused").to_string().starts_with("fault 100 at 0: "));
    }
    session.settle(&file).expect("it is settled");
    remove_file(path)
}

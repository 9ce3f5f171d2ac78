//! The same as `../c/disk.c`, from Rust: `printf 'put k value\nget k\nfill 3\n' | cargo run --release --bin disk FILE`.
use sandbox_host::{format as format_volume, Module, Pause, Supplies};
use std::error::Error;
use std::fs::{read, File};
use std::io::{stdin, stdout, BufRead, Write};
use std::os::unix::fs::FileExt;
use std::os::unix::io::AsRawFd;

const FUEL: u64 = 10_000_000;

/// One session over the volume in the file. What the guest says is passed on once what it synced before is there; the status that
/// it exited with is told once all that it did lasts.
fn run(guest: &[u8], disk: &File, line: &str) -> Result<u32, Box<dyn Error>> {
    let mut bytes = vec![0; disk.metadata()?.len() as usize / 512 * 512];
    disk.read_exact_at(&mut bytes, 0)?;
    let sectors: Vec<[u8; 512]> = bytes.chunks_exact(512).map(|it| it.try_into().expect("512 bytes")).collect();
    let args = ["keys", "store"].into_iter().chain(line.split_whitespace()).map(str::as_bytes).collect();
    let supplies = Supplies { args, preopens: vec![(b"/", b"/")], ..Supplies::default() };
    let mut session = Module::load(guest)?.open_recorded(&supplies, &sectors).map_err(|it| it.0)?;
    let (mut used, mut shown) = (0, 0);
    let ended = loop {
        let (pause, now) = session.resume(FUEL - used)?;
        session.settle(disk)?; // a sync of the guest lasts from here on
        let said = session.output(1);
        stdout().write_all(&said[shown..])?;
        stdout().flush()?;
        (used, shown) = (now, said.len());
        if !matches!(pause, Pause::Called { .. }) {
            break pause;
        }
    };
    session.finish()?;
    session.settle(disk)?; // and all that it did from here on
    Ok(if let Pause::Exited(code) = ended { code } else { 255 })
}

/// The C library's `flock`, since `File::try_lock` is younger than Debian 12's compiler.
fn lock(disk: &File) -> std::io::Result<()> {
    extern "C" {
        fn flock(descriptor: i32, operation: i32) -> i32;
    }
    const EXCLUSIVE_AT_ONCE: i32 = 2 | 4;
    // SAFETY: the descriptor is open.
    match unsafe { flock(disk.as_raw_fd(), EXCLUSIVE_AT_ONCE) } {
        0 => Ok(()),
        _ => Err(std::io::Error::last_os_error()),
    }
}

fn main() -> Result<(), Box<dyn Error>> {
    let mut words = std::env::args().skip(1);
    let path = words.next().ok_or("usage: disk FILE [keys.wasm]")?;
    let disk = File::options().read(true).write(true).create(true).truncate(false).open(path)?;
    lock(&disk)?;
    if disk.metadata()?.len() == 0 {
        disk.write_all_at(&format_volume(1000, 16)?.concat(), 0)?;
        disk.sync_all()?;
    }
    let guest = read(words.next().unwrap_or(concat!(env!("CARGO_MANIFEST_DIR"), "/../../c/keys.wasm").into()))?;
    for line in stdin().lock().lines() {
        let status = run(&guest, &disk, &line?)?;
        println!("{status}");
    }
    Ok(())
}

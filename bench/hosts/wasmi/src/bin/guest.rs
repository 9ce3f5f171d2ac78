//! Runs a WASI command with wasmi: its words, standard input and output as they are, no files, the time 0, zeros as random bytes.
//! `guest --load MODULE` ends before the guest's first step.
use std::fs::File;
use std::io::{Read, Write};
use std::mem::ManuallyDrop;
use std::os::fd::FromRawFd;
use wasmi::*;

const WASI: &str = "wasi_snapshot_preview1";
const BADF: i32 = 8;
const NOSYS: i32 = 52;
const SPIPE: i32 = 70;

/// The guest's words, its status, and its memory, which is looked up once.
#[derive(Default)]
struct Host {
    words: Vec<u8>,
    count: u32,
    exit: Option<i32>,
    memory: Option<Memory>,
}

fn put(caller: &mut Caller<'_, Host>, at: i32, bytes: &[u8]) {
    let memory = caller.data().memory.unwrap();
    memory.write(&mut *caller, at as u32 as usize, bytes).unwrap();
}

fn number(caller: &Caller<'_, Host>, at: u32) -> u32 {
    let mut bytes = [0; 4];
    caller.data().memory.unwrap().read(caller, at as usize, &mut bytes).unwrap();
    u32::from_le_bytes(bytes)
}

/// A descriptor of this process, which stays open. Nothing is buffered, as in `sandbox`.
fn stream(fd: i32) -> ManuallyDrop<File> {
    ManuallyDrop::new(unsafe { File::from_raw_fd(fd) })
}

/// Reads or writes the guest's pieces one after another, until one isn't filled.
fn pieces(caller: &mut Caller<'_, Host>, (at, count, told): (i32, i32, i32), mut one: impl FnMut(&mut [u8]) -> usize) -> i32 {
    let mut sum = 0u32;
    for i in 0..count as u32 {
        let (start, length) = (number(caller, at as u32 + 8 * i) as usize, number(caller, at as u32 + 8 * i + 4) as usize);
        let memory = caller.data().memory.unwrap();
        let done = if length == 0 { 0 } else { one(&mut memory.data_mut(&mut *caller)[start..start + length]) };
        sum += done as u32;
        if done < length {
            break;
        }
    }
    put(caller, told, &sum.to_le_bytes());
    0
}

fn fd_write(mut caller: Caller<'_, Host>, fd: i32, at: i32, count: i32, told: i32) -> i32 {
    if fd != 1 && fd != 2 {
        return BADF;
    }
    pieces(&mut caller, (at, count, told), |bytes| stream(fd).write_all(bytes).map(|()| bytes.len()).unwrap())
}

fn fd_read(mut caller: Caller<'_, Host>, fd: i32, at: i32, count: i32, told: i32) -> i32 {
    if fd != 0 {
        return BADF;
    }
    // as `sandbox`, until the piece is full or the input ends
    let fill = |bytes: &mut [u8]| {
        let mut done = 0;
        while done < bytes.len() {
            match stream(0).read(&mut bytes[done..]).unwrap() {
                0 => break,
                more => done += more,
            }
        }
        done
    };
    pieces(&mut caller, (at, count, told), fill)
}

/// A character device with all rights.
fn fd_fdstat_get(mut caller: Caller<'_, Host>, fd: i32, at: i32) -> i32 {
    if !(0..3).contains(&fd) {
        return BADF;
    }
    let mut told = [0xff; 24];
    told[..8].copy_from_slice(&[2, 0, 0, 0, 0, 0, 0, 0]);
    put(&mut caller, at, &told);
    0
}

fn args_sizes_get(mut caller: Caller<'_, Host>, count: i32, size: i32) -> i32 {
    let (words, length) = (caller.data().count, caller.data().words.len() as u32);
    put(&mut caller, count, &words.to_le_bytes());
    put(&mut caller, size, &length.to_le_bytes());
    0
}

fn args_get(mut caller: Caller<'_, Host>, places: i32, at: i32) -> i32 {
    let words = caller.data().words.clone();
    let (mut start, mut place) = (0, places);
    for word in words.split_inclusive(|it| *it == 0) {
        put(&mut caller, place, &(at as u32 + start).to_le_bytes());
        start += word.len() as u32;
        place += 4;
    }
    put(&mut caller, at, &words);
    0
}

fn environ_sizes_get(mut caller: Caller<'_, Host>, count: i32, size: i32) -> i32 {
    put(&mut caller, count, &[0; 4]);
    put(&mut caller, size, &[0; 4]);
    0
}

fn clock_time_get(mut caller: Caller<'_, Host>, _clock: i32, _precision: i64, at: i32) -> i32 {
    put(&mut caller, at, &[0; 8]);
    0
}

fn random_get(mut caller: Caller<'_, Host>, at: i32, length: i32) -> i32 {
    put(&mut caller, at, &vec![0; length as u32 as usize]);
    0
}

fn proc_exit(mut caller: Caller<'_, Host>, code: i32) -> Result<(), Error> {
    caller.data_mut().exit = Some(code);
    Err(Error::i32_exit(code))
}

/// The calls above, and for all others that the module asks for one that answers as a host without files.
fn linked(engine: &Engine, module: &Module) -> Result<Linker<Host>, Error> {
    let mut linker = Linker::new(engine);
    linker.func_wrap(WASI, "fd_write", fd_write)?.func_wrap(WASI, "fd_read", fd_read)?.func_wrap(WASI, "fd_fdstat_get", fd_fdstat_get)?;
    linker.func_wrap(WASI, "args_sizes_get", args_sizes_get)?.func_wrap(WASI, "args_get", args_get)?;
    linker.func_wrap(WASI, "environ_sizes_get", environ_sizes_get)?.func_wrap(WASI, "clock_time_get", clock_time_get)?;
    linker.func_wrap(WASI, "random_get", random_get)?.func_wrap(WASI, "proc_exit", proc_exit)?;
    for import in module.imports() {
        if let (WASI, Some(kind)) = (import.module(), import.ty().func()) {
            let answer = match import.name() {
                "environ_get" | "fd_close" => 0,
                "fd_seek" | "fd_tell" => SPIPE,
                name if name.starts_with("fd_") || name.starts_with("path_") => BADF,
                _ => NOSYS,
            };
            // what is linked already stays
            let _ = linker.func_new(WASI, import.name(), kind.clone(), move |_, _, results| {
                results.iter_mut().for_each(|it| *it = Val::I32(answer));
                Ok(())
            });
        }
    }
    Ok(linker)
}

fn main() {
    let mut given: Vec<String> = std::env::args().skip(1).collect();
    let loads_alone = given.first().is_some_and(|it| it == "--load");
    if loads_alone {
        given.remove(0);
    }
    let bytes = std::fs::read(&given[0]).unwrap();
    let engine = Engine::default();
    let module = Module::new(&engine, &bytes).unwrap();
    let linker = linked(&engine, &module).unwrap();
    let words = given.iter().flat_map(|it| it.bytes().chain([0])).collect();
    let mut store = Store::new(&engine, Host { words, count: given.len() as u32, ..Host::default() });
    let instance = linker.instantiate_and_start(&mut store, &module).unwrap();
    store.data_mut().memory = instance.get_memory(&store, "memory");
    let start = instance.get_typed_func::<(), ()>(&store, "_start").unwrap();
    if loads_alone {
        return;
    }
    let ended = start.call(&mut store, ());
    match (store.data().exit, ended) {
        (Some(code), _) => std::process::exit(code),
        (None, Ok(())) => {}
        (None, Err(trap)) => {
            eprintln!("{trap}");
            std::process::exit(120)
        }
    }
}

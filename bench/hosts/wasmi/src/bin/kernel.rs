//! Runs a kernel with wasmi and prints what it wrote. Where a second word is `--fuel`, wasmi counts fuel.
#[path = "../pieces.rs"]
mod pieces;

use pieces::gather;
use std::io::Write;
use wasmi::*;

const WASI: &str = "wasi_snapshot_preview1";

/// What the kernel has written, and its memory, which is looked up once.
#[derive(Default)]
struct Host {
    out: Vec<u8>,
    memory: Option<Memory>,
}

fn fd_write(mut caller: Caller<'_, Host>, _fd: i32, pieces: i32, count: i32, written: i32) -> i32 {
    let memory = caller.data().memory.unwrap();
    gather(&mut caller, memory, (pieces, count, written), |host| &mut host.out)
}

/// No clock is read: the time is 0, as that of `sandbox` without `--moment`. So the call itself is what takes time.
fn clock_time_get(mut caller: Caller<'_, Host>, _clock: i32, _precision: i64, at: i32) -> i32 {
    let memory = caller.data().memory.unwrap();
    memory.write(&mut caller, at as u32 as usize, &0u64.to_le_bytes()).unwrap();
    0
}

fn main() {
    let words: Vec<String> = std::env::args().skip(1).collect();
    let bytes = std::fs::read(&words[0]).unwrap();
    let counts = words.get(1).is_some_and(|it| it == "--fuel");
    let engine = Engine::new(Config::default().consume_fuel(counts));
    let module = Module::new(&engine, &bytes).unwrap();
    let mut linker = Linker::new(&engine);
    linker.func_wrap(WASI, "fd_write", fd_write).unwrap();
    linker.func_wrap(WASI, "clock_time_get", clock_time_get).unwrap();
    let mut store = Store::new(&engine, Host::default());
    if counts {
        store.set_fuel(u64::MAX).unwrap();
    }
    let instance = linker.instantiate_and_start(&mut store, &module).unwrap();
    store.data_mut().memory = instance.get_memory(&store, "memory");
    instance.get_typed_func::<(), ()>(&store, "_start").unwrap().call(&mut store, ()).unwrap();
    std::io::stdout().write_all(&store.data().out).unwrap();
}

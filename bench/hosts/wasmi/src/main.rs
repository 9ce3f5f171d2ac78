//! A session of a module with wasmi: from the bytes, and of a module that is compiled once.
mod pieces;

use pieces::gather;
use std::time::Instant;
use wasmi::*;

struct Host { out: Vec<u8>, exit: Option<i32> }

fn linker(engine: &Engine) -> Linker<Host> {
    let mut linker = Linker::new(engine);
    linker.func_wrap("wasi_snapshot_preview1", "fd_write", |mut caller: Caller<'_, Host>, _fd: i32, iovs: i32, count: i32, written: i32| -> i32 {
        let memory = caller.get_export("memory").unwrap().into_memory().unwrap();
        gather(&mut caller, memory, (iovs, count, written), |host| &mut host.out)
    }).unwrap();
    linker.func_wrap("wasi_snapshot_preview1", "proc_exit", |mut caller: Caller<'_, Host>, code: i32| -> Result<(), Error> {
        caller.data_mut().exit = Some(code);
        Err(Error::i32_exit(code))
    }).unwrap();
    linker
}

fn run(engine: &Engine, module: &Module, linker: &Linker<Host>) {
    let mut store = Store::new(engine, Host { out: Vec::new(), exit: None });
    let instance = linker.instantiate_and_start(&mut store, module).unwrap();
    let start = instance.get_typed_func::<(), ()>(&store, "_start").unwrap();
    let _ = start.call(&mut store, ());
    assert!(store.data().out == b"hi\n" && store.data().exit == Some(0));
}

fn best(runs: u32, mut one: impl FnMut()) -> f64 {
    (0..5).map(|_| { let t = Instant::now(); for _ in 0..runs { one() } t.elapsed().as_secs_f64() / runs as f64 * 1e6 }).fold(1e9, f64::min)
}

fn main() {
    let bytes = std::fs::read(std::env::args().nth(1).unwrap()).unwrap();
    let engine = Engine::default();
    let linker = linker(&engine);
    println!("wasmi, from the bytes: {:.1} us", best(20000, || { let module = Module::new(&engine, &bytes).unwrap(); run(&engine, &module, &linker) }));
    let module = Module::new(&engine, &bytes).unwrap();
    println!("wasmi, of a compiled module: {:.1} us", best(20000, || run(&engine, &module, &linker)));
}

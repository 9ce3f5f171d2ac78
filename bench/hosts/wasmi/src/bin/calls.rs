//! Calls of an export and of a host's function with wasmi, with its fuel: calls FILE [ROUNDS], where FILE is the module of
//! `bench/hosts/plugin_costs.c`. A host's function is a callback there, or a call that stops and goes on (`call_resumable`).
use std::time::Instant;
use wasmi::*;

#[derive(Debug)]
struct Stops;

impl std::fmt::Display for Stops {
    fn fmt(&self, f: &mut std::fmt::Formatter<'_>) -> std::fmt::Result {
        f.write_str("a function of the host is called")
    }
}

impl errors::HostError for Stops {}

fn opened(engine: &Engine, module: &Module, stops: bool) -> (Store<()>, Instance) {
    let (mut store, mut linker) = (Store::new(engine, ()), Linker::new(engine));
    store.set_fuel(u64::MAX).unwrap();
    linker.func_wrap("env", "f", move || -> Result<(), Error> { if stops { Err(Error::host(Stops)) } else { Ok(()) } }).unwrap();
    let instance = linker.instantiate_and_start(&mut store, module).unwrap();
    (store, instance)
}

fn least(rounds: u32, mut what: impl FnMut()) -> f64 {
    let once = |what: &mut dyn FnMut()| {
        let begun = Instant::now();
        what();
        begun.elapsed().as_secs_f64() * 1e9 / f64::from(rounds)
    };
    (0..7).map(|_| once(&mut what)).fold(f64::INFINITY, f64::min)
}

/// So many calls of the host's function, each of which stops the call.
fn asks(store: &mut Store<()>, ask: Func, rounds: u32) {
    let mut call = ask.call_resumable(&mut *store, &[Val::I32(rounds as i32)], &mut []).unwrap();
    while let ResumableCall::HostTrap(stopped) = call {
        call = stopped.resume(&mut *store, &[], &mut []).unwrap();
    }
    assert!(matches!(call, ResumableCall::Finished));
}

fn main() {
    let mut words = std::env::args().skip(1);
    let bytes = std::fs::read(words.next().expect("calls FILE [ROUNDS]")).unwrap();
    let rounds = words.next().map_or(200_000, |it| it.parse().unwrap());
    let engine = Engine::new(Config::default().consume_fuel(true));
    let module = Module::new(&engine, bytes).unwrap();
    let (mut store, instance) = opened(&engine, &module, false);
    let empty = instance.get_typed_func::<(), ()>(&store, "empty").unwrap();
    println!("wasmi: a call of an empty export: {:.1} ns", least(rounds, || (0..rounds).for_each(|_| empty.call(&mut store, ()).unwrap())));
    let ask = instance.get_typed_func::<i32, ()>(&store, "ask").unwrap();
    println!("wasmi: a callback: {:.1} ns", least(rounds, || ask.call(&mut store, rounds as i32).unwrap()));
    let (mut store, instance) = opened(&engine, &module, true);
    let ask = instance.get_func(&store, "ask").unwrap();
    println!("wasmi: a call that stops, and goes on: {:.1} ns", least(rounds, || asks(&mut store, ask, rounds)));
}

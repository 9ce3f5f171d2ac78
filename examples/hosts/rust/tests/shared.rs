//! One module that is prepared once, in sessions of several threads, and the functions at work in them: `cargo test`.
use sandbox_host::{errno_text, function_name, trap_text, Frame, Limits, Module, Pause, Supplies};
use std::fs::read;
use std::thread;

/// It writes `hi` and a line end, and has two imported functions before `_start`.
fn hi() -> Vec<u8> {
    read(concat!(env!("CARGO_MANIFEST_DIR"), "/../../hi.wasm")).expect("hi.wasm is there")
}

const FEW: Limits = Limits { pages: 2, values: 0, output: 0 };

fn supplies(limits: Limits) -> Supplies<'static> {
    Supplies { args: vec![b"hi"], preopens: vec![(b"/", b"/")], limits, ..Supplies::default() }
}

#[test]
fn threads_share_a_module() {
    let bytes = hi();
    let mut module = Module::prepare(&bytes, FEW).expect("it is prepared");
    let shared: Vec<_> = (0..4).map(|_| module.share().expect("it is shared")).collect();
    drop(module);
    thread::scope(|scope| {
        for mut own in shared {
            scope.spawn(move || {
                let mut sessions: Vec<_> = (0..8).map(|_| own.share().expect("it is shared").open(&supplies(FEW), None).map_err(|it| it.0).expect("it is opened")).collect();
                for session in &mut sessions {
                    assert_eq!(session.run(1000).expect("it runs"), (Pause::Exited(0), 8));
                    assert_eq!(session.output(1), b"hi\n");
                }
            });
        }
    });
}

#[test]
fn what_is_refused() {
    let bytes = hi();
    assert_eq!(Module::prepare(&bytes, Limits { pages: 65_537, ..FEW }).err().expect("it is refused").number, 15);
    assert_eq!(Module::load(&bytes).expect("it is valid").share().err().expect("it isn't prepared").number, 100);
    let module = Module::prepare(&bytes, FEW).expect("it is prepared");
    let (refused, module) = module.open(&supplies(Limits::default()), None).err().expect("it has other pages");
    assert_eq!(refused.number, 15);
    let mut module = module.open(&supplies(FEW), None).map_err(|it| it.0).expect("it is opened").close();
    assert!(module.share().is_ok());
}

/// `wasm-objdump -d` shows the third instruction of `_start` at 0x89.
#[test]
fn functions_at_work() {
    let bytes = hi();
    let mut session = Module::load(&bytes).expect("it is valid").open(&supplies(FEW), None).map_err(|it| it.0).expect("it is opened");
    assert_eq!(session.frames(), []);
    session.resume(2).expect("it runs");
    assert_eq!(session.frames(), [Frame { function: 2, offset: 0x89 }]);
    assert_eq!(function_name(&bytes, 2), b"_start");
    assert_eq!(function_name(&bytes, 7), b"function[7]");
    session.run(1000).expect("it runs");
    assert_eq!(session.frame(0), None);
}

#[test]
fn what_numbers_mean() {
    assert_eq!((trap_text(1).as_str(), errno_text(8).as_str(), trap_text(4_000_000_000).as_str()), ("integer divide by zero", "no such descriptor", ""));
}

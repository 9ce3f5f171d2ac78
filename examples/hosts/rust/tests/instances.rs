//! Exported functions that are called, and functions of the host that are asked: `cargo test`.
use sandbox_host::{Frame, Holds, Instance, Limits, Plugin, Step, Supplies};

/// Imports `env.twice`, [i32] -> [i32]. `_initialize` sets a counter to 40; `add` gives a sum; `ask` asks `twice` and adds the number at
/// 8; `fail` traps; `count` counts on and gives the counter.
const GUEST: &[u8] = b"\0asm\x01\0\0\0\x01\x13\x04`\x01\x7f\x01\x7f`\0\0`\x02\x7f\x7f\x01\x7f`\0\x01\x7f\x02\x0d\x01\x03env\x05twice\0\0\
    \x03\x06\x05\x01\x02\0\x01\x03\x05\x03\x01\0\x01\x06\x06\x01\x7f\x01A\0\x0b\
    \x07\x2a\x05\x0b_initialize\0\x01\x03add\0\x02\x03ask\0\x03\x04fail\0\x04\x05count\0\x05\
    \x0a\x2d\x05\x06\0A($\0\x0b\x07\0 \0 \x01j\x0b\x0c\0 \0\x10\0A\x08(\x02\0j\x0b\x03\0\0\x0b\x0b\0#\0A\x01j$\0#\0\x0b";

const FEW: Limits = Limits { pages: 1, values: 0, output: 0 };

fn supplies() -> Supplies<'static> {
    Supplies { args: vec![b"guest"], preopens: vec![(b"/", b"/")], limits: FEW, ..Supplies::default() }
}

fn opened(plugin: &mut Plugin<'static>) -> Instance<'static, 'static> {
    let mut instance = plugin.open(&supplies(), None).expect("it opens");
    assert!(matches!(instance.opening().run(100, |_| None), Ok(Step::Returned(None))));
    instance
}

fn given(instance: &mut Instance<'static, 'static>, name: &str, arguments: &[u64]) -> Option<u64> {
    let call = instance.call(name, arguments).expect("it is called");
    match call.run(100, |question| Some(2 * question.arguments()[0])).expect("it goes on") {
        Step::Returned(value) => value,
        _ => None,
    }
}

#[test]
fn a_call_is_answered_once() {
    let mut plugin = Plugin::load(GUEST, FEW, Holds::Integers).expect("it is loaded");
    assert_eq!(plugin.imports(), [("env".to_string(), "twice".to_string())]);
    assert_eq!(plugin.exports(), ["_initialize", "add", "ask", "fail", "count"]);
    let mut instance = opened(&mut plugin);
    assert_eq!(given(&mut instance, "add", &[2, 3]), Some(5));
    assert_eq!(instance.used(), 5);
    let call = instance.call("ask", &[5]).expect("it is called");
    let Ok(Step::Asked(mut question)) = call.go(100) else { panic!("it asks") };
    assert_eq!((question.import(), question.arguments()), (0, [5].as_slice()));
    assert_eq!(question.frames(), [Frame { function: 3, offset: 0x83 }]);
    question.write(8, &[7, 0, 0, 0]).expect("it is written");
    let Err((refused, question)) = question.answer(None) else { panic!("a result is wanted") };
    assert_eq!(refused.number, 109);
    let call = question.answer(Some(10)).map_err(|_| ()).expect("it is answered");
    assert!(matches!(call.go(100), Ok(Step::Returned(Some(17)))));
    assert_eq!(instance.used(), 10);
    let Ok(Step::Spent(mut call)) = instance.call("count", &[]).expect("it is called").go(2) else { panic!("its units are used") };
    assert_eq!(call.frames(), [Frame { function: 5, offset: 0x96 }]);
    assert!(matches!(call.go(9), Ok(Step::Returned(Some(41)))));
}

/// `read` hands its four numbers on to fd_read.
const READER: &[u8] = b"\0asm\x01\0\0\0\x01\x09\x01`\x04\x7f\x7f\x7f\x7f\x01\x7f\x02\x22\x01\x16wasi_snapshot_preview1\x07fd_read\0\0\
    \x03\x02\x01\0\x05\x03\x01\0\x01\x07\x08\x01\x04read\0\x01\x0a\x0e\x01\x0c\0 \0 \x01 \x02 \x03\x10\0\x0b";

#[test]
fn a_guest_waits_for_its_input() {
    let mut plugin = Plugin::load_fed(READER, FEW, Holds::Integers).expect("it is loaded");
    let mut instance = opened(&mut plugin);
    instance.write(16, &[0, 4, 0, 0, 3, 0, 0, 0]).expect("it is written");
    instance.feed(b"a").expect("it is fed");
    let call = instance.call("read", &[0, 16, 1, 512]).expect("it is called");
    let Ok(Step::Starved { wanted: 3, mut rest }) = call.go(100) else { panic!("it waits") };
    rest.feed(b"bcd").expect("it is fed");
    let Ok(Step::Returned(Some(0))) = rest.run(100, |_| None) else { panic!("it returns") };
    let mut room = [0; 3];
    instance.read(1024, &mut room).expect("it is read");
    assert_eq!(&room, b"abc");
    let Ok(Step::Starved { mut rest, .. }) = instance.call("read", &[0, 16, 1, 512]).expect("it is called").go(100) else { panic!("it waits") };
    rest.end_input().expect("it ends");
    assert_eq!(rest.feed(b"e").map_err(|it| it.number), Err(111));
    assert!(matches!(rest.run(100, |_| None), Ok(Step::Returned(Some(0)))));
    instance.read(512, &mut room).expect("it is read");
    assert_eq!(room[0], 1);
}

#[test]
fn a_trap_leaves_an_instance() {
    let mut plugin = Plugin::load(GUEST, FEW, Holds::Integers).expect("it is loaded");
    let (mut one, mut other) = (opened(&mut plugin), opened(&mut plugin));
    assert!(matches!(one.call("fail", &[]).expect("it is called").go(9), Ok(Step::Trapped(0))));
    assert_eq!(one.frames(), [Frame { function: 4, offset: 0x8e }]);
    assert_eq!(one.write(8, &[1]).map_err(|it| it.number), Err(106));
    one.abandon().expect("it is let go");
    assert_eq!(one.frames(), []);
    one.write(8, &[1]).expect("it is written");
    assert_eq!((given(&mut one, "count", &[]), given(&mut one, "count", &[])), (Some(41), Some(42)));
    assert_eq!((given(&mut other, "count", &[]), given(&mut other, "ask", &[3])), (Some(41), Some(6)));
    let mut room = [9; 4];
    assert_eq!(other.read(65_533, &mut room).map_err(|it| it.number), Err(110));
    assert_eq!(one.call("none", &[]).map_err(|it| it.number).err(), Some(108));
    let shared = plugin.share().expect("it is shared");
    let counted = std::thread::spawn(move || {
        let mut shared = shared;
        given(&mut opened(&mut shared), "count", &[])
    });
    assert_eq!(counted.join().expect("it ends"), Some(41));
}

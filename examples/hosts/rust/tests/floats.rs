//! A module with floats is taken where it is asked for, and nowhere else.
use sandbox_host::{Holds, Limits, Module, Pause, Supplies};

/// `_start` drops the constant 0 of f32.
const FLOAT: &[u8] = b"\0asm\x01\0\0\0\x01\x04\x01\x60\0\0\x03\x02\x01\0\x07\x0a\x01\x06_start\0\0\x0a\x0a\x01\x08\0\x43\0\0\0\0\x1a\x0b";

#[test]
fn floats_are_taken_where_they_are_asked_for() {
    assert_eq!(Module::load(FLOAT).err().map(|it| it.number), Some(10));
    for module in [Module::load_with(FLOAT, Holds::Floats), Module::prepare_with(FLOAT, Limits::default(), Holds::Floats)] {
        let mut session = module.expect("valid").open(&Supplies::default(), None).map_err(|it| it.0).expect("opened");
        assert_eq!(session.run(1000).expect("a session"), (Pause::Exited(0), 2));
    }
}

//! The same plugin as `greet.c`, in Rust: `greet(name, length)` has its host say a greeting, by `env.say(text, length)`, and gives how many
//! it has greeted so far. `room(length)` gives memory, where the host writes the name; `greet` frees it.
use std::sync::atomic::{AtomicU32, Ordering::Relaxed};

#[link(wasm_import_module = "env")]
extern "C" {
    fn say(text: *const u8, length: usize);
}

static GREETED: AtomicU32 = AtomicU32::new(0);

#[no_mangle]
pub extern "C" fn room(length: usize) -> *mut u8 {
    Box::leak(vec![0; length].into_boxed_slice()).as_mut_ptr()
}

/// # Safety
///
/// The name lies in a room of this length, which is given away.
#[no_mangle]
pub unsafe extern "C" fn greet(name: *mut u8, length: usize) -> u32 {
    let name = Vec::from_raw_parts(name, length, length);
    let text = format!("Hello, {}!", String::from_utf8_lossy(&name));
    say(text.as_ptr(), text.len());
    GREETED.fetch_add(1, Relaxed) + 1
}

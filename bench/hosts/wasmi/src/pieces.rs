//! What a guest hands to `fd_write`, which both programs here take in the same way.
use wasmi::*;

/// Adds the bytes of the guest's pieces to what `out` gives of the host, and tells the guest how many they were.
#[inline(always)]
pub fn gather<T>(caller: &mut Caller<'_, T>, memory: Memory, (pieces, count, written): (i32, i32, i32), out: impl Fn(&mut T) -> &mut Vec<u8>) -> i32 {
    let mut sum = 0u32;
    for i in 0..count {
        let mut pair = [0u8; 8];
        memory.read(&*caller, (pieces + 8 * i) as usize, &mut pair).unwrap();
        let at = u32::from_le_bytes(pair[..4].try_into().unwrap()) as usize;
        let len = u32::from_le_bytes(pair[4..].try_into().unwrap()) as usize;
        let (bytes, host) = memory.data_and_store_mut(&mut *caller);
        out(host).extend_from_slice(&bytes[at..at + len]);
        sum += len as u32;
    }
    memory.write(&mut *caller, written as usize, &sum.to_le_bytes()).unwrap();
    0
}

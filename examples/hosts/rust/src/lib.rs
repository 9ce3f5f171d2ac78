//! WebAssembly guests with exact fuel, from Rust: safe types over `include/sandbox.h`.
//!
//! A [`Module`] is decoded and validated once. [`Module::open`] turns it into a [`Session`], and [`Session::close`] gives it
//! back, so one module serves many sessions one after another. One that is made by [`Module::prepare`] can be shared
//! ([`Module::share`]): then any number of sessions are of it at once, in any threads, and each opens as fast as one of a small
//! module. What a guest reads is borrowed for as long as its session lives. Both may go to another thread; each thread can have its
//! own.
mod plugin;
mod sys;

pub use plugin::{Call, Instance, Plugin, Question, Step};

use std::error::Error;
use std::fmt;
use std::fs::File;
use std::marker::PhantomData;
use std::os::unix::fs::FileExt;
use std::os::unix::io::AsRawFd;
use std::ptr::null_mut;

/// The bytes of a volume's sectors.
pub type Sectors = Vec<[u8; 512]>;

/// Why a call was refused: the number of a fault as the program `sandbox` prints it, and the place in a refused module.
#[derive(Debug, Clone, Copy, PartialEq, Eq)]
pub struct Refused {
    pub number: u32,
    pub offset: u32,
}

impl fmt::Display for Refused {
    fn fmt(&self, f: &mut fmt::Formatter<'_>) -> fmt::Result {
        write!(f, "fault {} at {}: {}", self.number, self.offset, text(0, self.number))
    }
}

impl Error for Refused {}

/// What a number of this kind means.
fn text(kind: u32, number: u32) -> String {
    let mut room = [0; 80];
    // SAFETY: the room has this length.
    let length = unsafe { sys::sandbox_text(kind, number, room.as_mut_ptr(), room.len()) };
    String::from_utf8_lossy(&room[..length.min(room.len())]).into_owned()
}

/// What the number of a `Pause::Trapped` means, as `integer divide by zero`; empty for one that is none.
pub fn trap_text(number: u32) -> String {
    text(1, number)
}

/// What an errno means, as `no such descriptor`; empty for one that is none.
pub fn errno_text(number: u32) -> String {
    text(2, number)
}

/// What is called isn't there, or in another state.
const MISUSE: u32 = 100;

fn answered(number: u32) -> Result<(), Refused> {
    answered_at(number, 0)
}

/// The same, of a module that may be refused at a place in its bytes.
fn answered_at(number: u32, offset: u32) -> Result<(), Refused> {
    match number {
        0 => Ok(()),
        _ => Err(Refused { number, offset }),
    }
}

/// These sectors, or an empty volume that is discarded at the end.
fn volume_of(sectors: Option<&[[u8; 512]]>) -> sys::Volume {
    match sectors {
        None => sys::Volume { kind: 0, sectors: [].as_ptr(), sectors_count: 0 },
        Some(sectors) => sys::Volume { kind: 1, sectors: sectors.as_ptr(), sectors_count: sectors.len() },
    }
}

/// What the guest of a session or an instance has written so far to descriptor 1 or 2.
fn written(raw: &mut *mut sys::OpaqueSession, descriptor: u32) -> Vec<u8> {
    // SAFETY: `raw` is a session or an instance, and the room has its length.
    unsafe {
        let length = sys::sandbox_output(raw, descriptor, 0, [].as_mut_ptr(), 0);
        let mut room = vec![0; length];
        sys::sandbox_output(raw, descriptor, 0, room.as_mut_ptr(), length);
        room
    }
}

/// The sectors of one that is finished.
fn sectors_of(raw: &mut *mut sys::OpaqueSession) -> Sectors {
    // SAFETY: `raw` is a session or an instance, and the room has its length.
    unsafe {
        let count = sys::sandbox_volume_out(raw, [].as_mut_ptr(), 0);
        let mut sectors = vec![[0; 512]; count];
        sys::sandbox_volume_out(raw, sectors.as_mut_ptr(), count);
        sectors
    }
}

/// Why a session came back.
#[derive(Debug, Clone, Copy, PartialEq, Eq)]
pub enum Pause {
    /// The guest exited with this status.
    Exited(u32),
    /// It trapped; the number is the header's.
    Trapped(u32),
    OutOfMemory,
    /// One call of the host was answered, with this errno; which one is the header's number.
    Called { call: u32, errno: u32 },
    /// The units are used.
    Spent,
}

/// A function at work.
#[derive(Debug, Clone, Copy, PartialEq, Eq)]
pub struct Frame {
    /// Its index in the module, the imported ones counted first.
    pub function: u32,
    /// Where it stands in the module's bytes: at the instruction that comes next, or at its call.
    pub offset: u32,
}

/// The function at work with so many inside it, of a session or an instance.
fn frame_at(raw: &mut *mut sys::OpaqueSession, number: usize) -> Option<Frame> {
    let mut frame = sys::Frame::default();
    // SAFETY: `raw` is a session or an instance.
    let answer = unsafe { sys::sandbox_frame_at(raw, number, &mut frame) };
    (answer == 0).then_some(Frame { function: frame.function, offset: frame.offset })
}

/// The most that a guest may have. 0 is the library's default.
#[derive(Debug, Clone, Copy, Default, PartialEq, Eq)]
pub struct Limits {
    /// Pages of memory, of 65,536 bytes: 1,024 by default.
    pub pages: u32,
    /// Values on its stack, of 8 bytes: 1,048,576 by default.
    pub values: u32,
    /// Bytes that it writes to descriptor 1, and as many to 2: 16,777,216 by default.
    pub output: u64,
}

/// What a guest is given. Texts are bytes.
#[derive(Clone, Default)]
pub struct Supplies<'a> {
    /// The program's name first.
    pub args: Vec<&'a [u8]>,
    pub env: Vec<&'a [u8]>,
    /// The name that the guest knows a directory by, and its path in the volume.
    pub preopens: Vec<(&'a [u8], &'a [u8])>,
    /// Nanoseconds since 1970-01-01 00:00:00 UTC.
    pub moment: u64,
    pub random: &'a [u8],
    pub limits: Limits,
    pub input: &'a [u8],
}

/// What a module may hold: floats only where they are asked for.
#[derive(Clone, Copy)]
pub enum Holds {
    Integers = 0,
    Floats = 1,
}

/// A valid module.
pub struct Module<'a> {
    raw: *mut sys::OpaqueModule,
    bytes: PhantomData<&'a [u8]>,
}

impl<'a> Module<'a> {
    /// Decodes and validates the module that the bytes spell.
    pub fn load(bytes: &'a [u8]) -> Result<Module<'a>, Refused> {
        Module::load_with(bytes, Holds::Integers)
    }

    /// The same of a module that may hold this.
    pub fn load_with(bytes: &'a [u8], holds: Holds) -> Result<Module<'a>, Refused> {
        let (mut raw, mut why) = (null_mut(), sys::Why::default());
        // SAFETY: the bytes are borrowed for as long as the module or its session lives.
        let number = unsafe { sys::sandbox_load_with(&mut raw, bytes.as_ptr(), bytes.len(), holds as u32, &mut why) };
        answered_at(number, why.offset)?;
        Ok(Module { raw, bytes: PhantomData })
    }

    /// Decodes and validates the module, and makes all once that its sessions look up. They have the pages of these limits; one with
    /// others is refused with 15.
    pub fn prepare(bytes: &'a [u8], limits: Limits) -> Result<Module<'a>, Refused> {
        Module::prepare_with(bytes, limits, Holds::Integers)
    }

    /// The same of a module that may hold this.
    pub fn prepare_with(bytes: &'a [u8], limits: Limits, holds: Holds) -> Result<Module<'a>, Refused> {
        let (mut raw, mut why) = (null_mut(), sys::Why::default());
        // SAFETY: the bytes are borrowed for as long as the module, what shares it, or a session of them lives.
        let number = unsafe { sys::sandbox_prepare_with(&mut raw, bytes.as_ptr(), bytes.len(), &limits_of(limits), holds as u32, &mut why) };
        answered_at(number, why.offset)?;
        Ok(Module { raw, bytes: PhantomData })
    }

    /// The same module again, where it was prepared; else that is refused as misuse. Nothing is decoded or made again.
    pub fn share(&mut self) -> Result<Module<'a>, Refused> {
        let mut other = Module { raw: null_mut(), bytes: PhantomData };
        // SAFETY: the other is none yet.
        answered(unsafe { sys::sandbox_module_share(&mut other.raw, &mut self.raw) })?;
        Ok(other)
    }

    /// A session of the module, over these sectors, or over an empty volume that is discarded at the end. A refusal gives the
    /// module back.
    pub fn open<'s>(self, supplies: &Supplies<'s>, volume: Option<&[[u8; 512]]>) -> Result<Session<'a, 's>, (Refused, Module<'a>)> {
        self.open_over(supplies, volume_of(volume))
    }

    /// A session over these sectors, which are those of a file: [`Session::settle`] does there what the session did.
    pub fn open_recorded<'s>(self, supplies: &Supplies<'s>, sectors: &[[u8; 512]]) -> Result<Session<'a, 's>, (Refused, Module<'a>)> {
        self.open_over(supplies, sys::Volume { kind: 2, sectors: sectors.as_ptr(), sectors_count: sectors.len() })
    }

    /// A session over more than 65,536 sectors, as a volume of version 4 may have them; recorded as that of [`Module::open_recorded`], or not.
    pub fn open_huge<'s>(self, supplies: &Supplies<'s>, sectors: &[[u8; 512]], is_recorded: bool) -> Result<Session<'a, 's>, (Refused, Module<'a>)> {
        self.open_over(supplies, sys::Volume { kind: if is_recorded { 6 } else { 5 }, sectors: sectors.as_ptr(), sectors_count: sectors.len() })
    }

    fn open_over<'s>(mut self, supplies: &Supplies<'s>, volume: sys::Volume) -> Result<Session<'a, 's>, (Refused, Module<'a>)> {
        let kept = Kept::of(supplies);
        let mut raw = null_mut();
        // SAFETY: what the supplies lead to is in `kept`, beside the session, or borrowed as long as it.
        match unsafe { sys::sandbox_open_loaded(&mut raw, &mut self.raw, &kept.supplies(supplies), &volume) } {
            0 => Ok(Session { raw, settled: 0, used: 0, _kept: kept, module: PhantomData, supplies: PhantomData }),
            number => Err((Refused { number, offset: 0 }, self)),
        }
    }
}

impl Drop for Module<'_> {
    fn drop(&mut self) {
        // SAFETY: NULL, once it has gone into a session, is answered as misuse.
        unsafe { sys::sandbox_unload(&mut self.raw) };
    }
}

// SAFETY: it owns what it points to, or borrows bytes that any thread may read, and the library lets it move between two calls.
// Each call takes it alone, so it isn't `Sync`.
unsafe impl Send for Module<'_> {}

/// The arrays that a session reads as long as it lives.
struct Kept {
    args: Box<[sys::Bytes]>,
    env: Box<[sys::Bytes]>,
    preopens: Box<[sys::Preopen]>,
}

fn limits_of(limits: Limits) -> sys::Limits {
    sys::Limits { pages: limits.pages, values: limits.values, output: limits.output, later: [0; 6] }
}

fn bytes_of(bytes: &[u8]) -> sys::Bytes {
    sys::Bytes { at: bytes.as_ptr(), length: bytes.len() }
}

impl Kept {
    fn of(supplies: &Supplies<'_>) -> Kept {
        let preopen = |it: &(&[u8], &[u8])| sys::Preopen { guest_name: bytes_of(it.0), path: bytes_of(it.1) };
        Kept {
            args: supplies.args.iter().map(|it| bytes_of(it)).collect(),
            env: supplies.env.iter().map(|it| bytes_of(it)).collect(),
            preopens: supplies.preopens.iter().map(preopen).collect(),
        }
    }

    fn supplies(&self, given: &Supplies<'_>) -> sys::Supplies {
        sys::Supplies {
            args: self.args.as_ptr(),
            args_count: self.args.len(),
            env: self.env.as_ptr(),
            env_count: self.env.len(),
            preopens: self.preopens.as_ptr(),
            preopens_count: self.preopens.len(),
            moment: given.moment,
            random: bytes_of(given.random),
            limits: limits_of(given.limits),
            input: bytes_of(given.input),
        }
    }
}

/// A guest on its way. Until it is closed or dropped it borrows the module's bytes for `'a`, and what the guest is given for `'s`.
pub struct Session<'a, 's> {
    raw: *mut sys::OpaqueSession,
    /// How many of its operations were done on a file.
    settled: usize,
    /// The units so far.
    used: u64,
    _kept: Kept,
    module: PhantomData<&'a [u8]>,
    supplies: PhantomData<&'s [u8]>,
}

impl<'a> Session<'a, '_> {
    /// Goes on for at most this many units, and tells how many were used since the session began.
    pub fn resume(&mut self, units: u64) -> Result<(Pause, u64), Refused> {
        let mut told = sys::Told::default();
        // SAFETY: `raw` is a session.
        answered(unsafe { sys::sandbox_resume(&mut self.raw, units, &mut told) })?;
        let pause = match told.kind {
            0 => Pause::Exited(told.code),
            1 => Pause::Trapped(told.code),
            3 => Pause::OutOfMemory,
            4 => Pause::Called { call: told.call, errno: told.code },
            _ => Pause::Spent,
        };
        self.used = told.used;
        Ok((pause, told.used))
    }

    /// Goes on until the guest ends or this many units are used since the session began.
    pub fn run(&mut self, fuel: u64) -> Result<(Pause, u64), Refused> {
        loop {
            let (pause, used) = self.resume(fuel.saturating_sub(self.used))?;
            if !matches!(pause, Pause::Called { .. }) {
                return Ok((pause, used));
            }
        }
    }

    /// The function at work that has so many inside it, 0 the innermost: while the session runs, and of a trap or out of memory what
    /// was at work then. Before the first resume, after an exit and once it is finished there is none.
    pub fn frame(&mut self, number: usize) -> Option<Frame> {
        frame_at(&mut self.raw, number)
    }

    /// The functions at work, the innermost first.
    pub fn frames(&mut self) -> Vec<Frame> {
        (0..).map_while(|number| self.frame(number)).collect()
    }

    /// What the guest has written so far to descriptor 1 or 2.
    pub fn output(&mut self, descriptor: u32) -> Vec<u8> {
        written(&mut self.raw, descriptor)
    }

    /// Whether a write of the guest to descriptor 1 or 2 was refused since it has written as much there as it may.
    pub fn full(&mut self, descriptor: u32) -> bool {
        // SAFETY: `raw` is a session.
        unsafe { sys::sandbox_full(&mut self.raw, descriptor) == 1 }
    }

    /// Commits the guest's calls, and gives the sectors of its volume.
    pub fn finish(&mut self) -> Result<Sectors, Refused> {
        // SAFETY: `raw` is a session.
        answered(unsafe { sys::sandbox_finish(&mut self.raw) })?;
        Ok(sectors_of(&mut self.raw))
    }

    /// Does what the session did to its volume since the last time on the file that has the sectors it was opened over, with a
    /// sync at each of its syncs. After a resume what the guest synced lasts from then on, before it goes on; after
    /// [`Session::finish`] all that it did. A stop at any moment leaves the volume as it was at a moment of the session. Where
    /// this fails, it isn't called again. A file that has the number of a standard stream, 0, 1 or 2, is refused as misuse.
    pub fn settle(&mut self, file: &File) -> Result<(), Box<dyn Error>> {
        if file.as_raw_fd() <= 2 {
            return Err(Box::new(Refused { number: MISUSE, offset: 0 }));
        }
        let mut operation = sys::Operation { kind: 0, sector: 0, bytes: [0; 512] };
        let mut is_written = false;
        loop {
            // SAFETY: `raw` is a session.
            answered(unsafe { sys::sandbox_operation_at(&mut self.raw, self.settled, &mut operation) })?;
            match operation.kind {
                1 => file.write_all_at(&operation.bytes, u64::from(operation.sector) * 512)?,
                2 => file.sync_data()?,
                _ => break,
            }
            is_written = operation.kind == 1;
            self.settled += 1;
        }
        if is_written {
            file.sync_data()?;
        }
        Ok(())
    }

    /// Discards the session, and gives its module back. What wasn't finished is finished first.
    pub fn close(mut self) -> Module<'a> {
        let mut module = Module { raw: null_mut(), bytes: PhantomData };
        // SAFETY: `raw` is a session, and the module is none yet. A second finish is answered as misuse.
        unsafe {
            sys::sandbox_finish(&mut self.raw);
            sys::sandbox_close_loaded(&mut self.raw, &mut module.raw);
        }
        module
    }
}

// SAFETY: as for `Module`; the arrays in `_kept` move with it, and what they lead to is borrowed.
unsafe impl Send for Session<'_, '_> {}

impl Drop for Session<'_, '_> {
    fn drop(&mut self) {
        // SAFETY: NULL, once it is closed, is answered as misuse.
        unsafe { sys::sandbox_close(&mut self.raw) };
    }
}

/// An empty volume of version 4, which may have more sectors and slots.
pub fn format_huge(sectors: usize, slots: u32) -> Result<Sectors, Refused> {
    let mut made = vec![[0; 512]; sectors];
    // SAFETY: there are so many sectors.
    answered(unsafe { sys::sandbox_format_huge(made.as_mut_ptr(), sectors, slots) })?;
    Ok(made)
}

/// An empty volume of so many sectors and slots.
pub fn format(sectors: usize, slots: u32) -> Result<Sectors, Refused> {
    let mut made = vec![[0; 512]; sectors];
    // SAFETY: there are so many sectors.
    answered(unsafe { sys::sandbox_format(made.as_mut_ptr(), sectors, slots) })?;
    Ok(made)
}

/// What a function of a module is called: its name in the section `name`, else that of its first export, else `function[3]`. An
/// empty name is none; else it has any bytes.
pub fn function_name(module: &[u8], function: u32) -> Vec<u8> {
    // SAFETY: the room has its length.
    unsafe {
        let length = sys::sandbox_function_name(module.as_ptr(), module.len(), function, [].as_mut_ptr(), 0);
        let mut room = vec![0; length];
        sys::sandbox_function_name(module.as_ptr(), module.len(), function, room.as_mut_ptr(), length);
        room
    }
}

/// The archive's version, as the header counts it.
pub fn version() -> u32 {
    // SAFETY: it takes nothing.
    unsafe { sys::sandbox_version() }
}

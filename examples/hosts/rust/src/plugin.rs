//! Instances of a module whose exported functions are called, and whose imports the host answers (`include/sandbox_plugin.h`).
//!
//! A [`Plugin`] is loaded once, for any number of [`Instance`]s in any threads. [`Instance::opening`] runs the start function and
//! `_initialize`; then [`Instance::call`] gives a [`Call`], which goes on by [`Call::go`]. Where the guest calls a function of the host
//! that gives a [`Question`], and only its answer gives the call back: so each is answered once, and nothing else is called meanwhile.
//! A value is a number of 64 bits; one of 32 bits is below 2^32, and a float's are its bits.
use super::{answered, answered_at, frame_at, limits_of, sectors_of, volume_of, written};
use super::{Frame, Holds, Kept, Limits, Refused, Sectors, Supplies};
use crate::sys;
use std::marker::PhantomData;
use std::ptr::null_mut;

/// As many parameters a function that is called, or of the host, may have.
const MOST_VALUES: usize = 16;

/// A valid module that is ready for instances.
pub struct Plugin<'a> {
    raw: *mut sys::OpaquePlugin,
    bytes: PhantomData<&'a [u8]>,
}

impl<'a> Plugin<'a> {
    /// Decodes and validates the module, and makes all once that its instances look up. They have the pages of these limits.
    pub fn load(bytes: &'a [u8], limits: Limits, holds: Holds) -> Result<Plugin<'a>, Refused> {
        let (mut raw, mut why) = (null_mut(), sys::Why::default());
        // SAFETY: the bytes are borrowed for as long as the module, what shares it, or an instance of them lives.
        let number = unsafe { sys::sandbox_plugin_load(&mut raw, bytes.as_ptr(), bytes.len(), &limits_of(limits), holds as u32, &mut why) };
        answered_at(number, why.offset)?;
        Ok(Plugin { raw, bytes: PhantomData })
    }

    /// The same, for instances whose input goes on: `supplies.input` is what is there at the opening, and a guest that reads more than is
    /// there waits, which is [`Step::Starved`].
    pub fn load_fed(bytes: &'a [u8], limits: Limits, holds: Holds) -> Result<Plugin<'a>, Refused> {
        let (mut raw, mut why) = (null_mut(), sys::Why::default());
        // SAFETY: as of `load`.
        let number = unsafe { sys::sandbox_plugin_load_fed(&mut raw, bytes.as_ptr(), bytes.len(), &limits_of(limits), holds as u32, &mut why) };
        answered_at(number, why.offset)?;
        Ok(Plugin { raw, bytes: PhantomData })
    }

    /// The same module again, for another thread.
    pub fn share(&mut self) -> Result<Plugin<'a>, Refused> {
        let mut other = Plugin { raw: null_mut(), bytes: PhantomData };
        // SAFETY: the other is none yet.
        answered(unsafe { sys::sandbox_plugin_share(&mut other.raw, &mut self.raw) })?;
        Ok(other)
    }

    fn name(&mut self, part: u32, index: usize) -> Option<String> {
        // SAFETY: `raw` is a module, and the room has its length.
        unsafe {
            let length = sys::sandbox_plugin_name(&mut self.raw, part, index, [].as_mut_ptr(), 0);
            if length == usize::MAX {
                return None;
            }
            let mut room = vec![0; length];
            sys::sandbox_plugin_name(&mut self.raw, part, index, room.as_mut_ptr(), length);
            Some(String::from_utf8_lossy(&room).into_owned())
        }
    }

    /// The module name and the name of each import, in their order.
    pub fn imports(&mut self) -> Vec<(String, String)> {
        (0..).map_while(|index| Some((self.name(0, index)?, self.name(1, index)?))).collect()
    }

    /// The name of each export, in their order.
    pub fn exports(&mut self) -> Vec<String> {
        (0..).map_while(|index| self.name(2, index)).collect()
    }

    /// An instance, over these sectors, or over an empty volume that is discarded at the end. Nothing of it has run yet.
    pub fn open<'s>(&mut self, supplies: &Supplies<'s>, volume: Option<&[[u8; 512]]>) -> Result<Instance<'a, 's>, Refused> {
        let over = volume_of(volume);
        let kept = Kept::of(supplies);
        let mut raw = null_mut();
        // SAFETY: what the supplies lead to is in `kept`, beside the instance, or borrowed as long as it.
        answered(unsafe { sys::sandbox_instance_open(&mut raw, &mut self.raw, &kept.supplies(supplies), &over) })?;
        Ok(Instance { raw, used: 0, _kept: kept, module: PhantomData, supplies: PhantomData })
    }
}

impl Drop for Plugin<'_> {
    fn drop(&mut self) {
        // SAFETY: NULL, where it was never made, is answered as misuse.
        unsafe { sys::sandbox_plugin_unload(&mut self.raw) };
    }
}

// SAFETY: as of a module: it owns what it points to, and each call takes it alone.
unsafe impl Send for Plugin<'_> {}

/// An instance of a module. It borrows the module's bytes for `'a`, and what the guest is given for `'s`.
pub struct Instance<'a, 's> {
    raw: *mut sys::OpaqueSession,
    /// The units so far.
    used: u64,
    _kept: Kept,
    module: PhantomData<&'a [u8]>,
    supplies: PhantomData<&'s [u8]>,
}

impl<'a, 's> Instance<'a, 's> {
    /// Its start function and its `_initialize`: they run to their end before anything is called.
    pub fn opening(&mut self) -> Call<'_, 'a, 's> {
        Call { instance: self }
    }

    /// Is about to enter an exported function. Nothing runs before [`Call::go`].
    pub fn call(&mut self, name: &str, arguments: &[u64]) -> Result<Call<'_, 'a, 's>, Refused> {
        // SAFETY: `raw` is an instance, and both have their lengths.
        answered(unsafe { sys::sandbox_invoke(&mut self.raw, name.as_ptr(), name.len(), arguments.as_ptr(), arguments.len()) })?;
        Ok(Call { instance: self })
    }

    /// Lets go what is at work, where a call was dropped or has trapped.
    pub fn abandon(&mut self) -> Result<(), Refused> {
        // SAFETY: `raw` is an instance.
        answered(unsafe { sys::sandbox_abandon(&mut self.raw) })
    }

    /// Hands over bytes of its input, of a module that [`Plugin::load_fed`] has loaded. Behind the end they are refused, with 111.
    pub fn feed(&mut self, bytes: &[u8]) -> Result<(), Refused> {
        // SAFETY: `raw` is an instance, and the bytes have their length; they are copied.
        answered(unsafe { sys::sandbox_feed(&mut self.raw, bytes.as_ptr(), bytes.len()) })
    }

    /// Says that no more bytes of its input come.
    pub fn end_input(&mut self) -> Result<(), Refused> {
        // SAFETY: `raw` is an instance.
        answered(unsafe { sys::sandbox_feed_end(&mut self.raw) })
    }

    /// The functions at work, the innermost first: after a trap, or where memory was refused, those of then, until the next call or
    /// [`Instance::abandon`].
    pub fn frames(&mut self) -> Vec<Frame> {
        (0..).map_while(|number| frame_at(&mut self.raw, number)).collect()
    }

    /// The units of fuel used so far.
    pub fn used(&self) -> u64 {
        self.used
    }

    /// How many bytes memory has.
    pub fn memory_size(&mut self) -> usize {
        // SAFETY: `raw` is an instance.
        unsafe { sys::sandbox_memory_size(&mut self.raw) }
    }

    /// Copies bytes out of memory: all, or none where they would pass its end.
    pub fn read(&mut self, address: u32, room: &mut [u8]) -> Result<(), Refused> {
        // SAFETY: `raw` is an instance, and the room has its length.
        answered(unsafe { sys::sandbox_memory_read(&mut self.raw, address, room.as_mut_ptr(), room.len()) })
    }

    /// Copies bytes into memory where nothing runs: all, or none where they would pass its end.
    pub fn write(&mut self, address: u32, bytes: &[u8]) -> Result<(), Refused> {
        // SAFETY: `raw` is an instance, and the bytes have their length.
        answered(unsafe { sys::sandbox_memory_write(&mut self.raw, address, bytes.as_ptr(), bytes.len()) })
    }

    /// What the guest has written so far to descriptor 1 or 2.
    pub fn output(&mut self, descriptor: u32) -> Vec<u8> {
        written(&mut self.raw, descriptor)
    }

    /// Commits the guest's calls of WASI, and gives the sectors of its volume. Nothing is called any more.
    pub fn finish(&mut self) -> Result<Sectors, Refused> {
        // SAFETY: `raw` is an instance.
        answered(unsafe { sys::sandbox_instance_finish(&mut self.raw) })?;
        Ok(sectors_of(&mut self.raw))
    }

    /// What it has to hand over: arguments, or a result.
    fn values(&mut self) -> Vec<u64> {
        let mut room = [0; MOST_VALUES];
        // SAFETY: `raw` is an instance, and the room has its length.
        let count = unsafe { sys::sandbox_values(&mut self.raw, room.as_mut_ptr(), room.len()) };
        room[..count.min(MOST_VALUES)].to_vec()
    }
}

impl Drop for Instance<'_, '_> {
    fn drop(&mut self) {
        // SAFETY: `raw` is an instance.
        unsafe { sys::sandbox_close(&mut self.raw) };
    }
}

// SAFETY: it owns what it points to, or borrows bytes that any thread may read, and the library lets it move between two calls.
unsafe impl Send for Instance<'_, '_> {}

/// A function at work.
#[must_use = "a call that is dropped stays at work until the instance abandons it"]
pub struct Call<'i, 'a, 's> {
    instance: &'i mut Instance<'a, 's>,
}

/// Why a call came back.
pub enum Step<'i, 'a, 's> {
    /// With its result, if it has one.
    Returned(Option<u64>),
    /// It calls a function of the host.
    Asked(Question<'i, 'a, 's>),
    /// One call of WASI was answered, with this errno; which one is the header's number.
    Called { call: u32, errno: u32, rest: Call<'i, 'a, 's> },
    /// The units are used.
    Spent(Call<'i, 'a, 's>),
    /// It reads its input and asks for so many bytes: fewer are there, and more may come. It stands before that read.
    Starved { wanted: u32, rest: Call<'i, 'a, 's> },
    /// `proc_exit`: the instance is over.
    Exited(u32),
    /// The number is the header's. Another function can be called.
    Trapped(u32),
    OutOfMemory,
}

impl<'i, 'a, 's> Call<'i, 'a, 's> {
    /// Goes on for at most this many units.
    pub fn go(self, units: u64) -> Result<Step<'i, 'a, 's>, Refused> {
        let mut told = sys::Told::default();
        // SAFETY: `raw` is an instance.
        answered(unsafe { sys::sandbox_go(&mut self.instance.raw, units, &mut told) })?;
        self.instance.used = told.used;
        Ok(match told.kind {
            0 => Step::Exited(told.code),
            1 => Step::Trapped(told.code),
            3 => Step::OutOfMemory,
            4 => Step::Called { call: told.call, errno: told.code, rest: self },
            6 => Step::Returned(self.instance.values().first().copied()),
            7 => Step::Asked(Question { import: told.call as usize, arguments: self.instance.values(), call: self }),
            8 => Step::Starved { wanted: told.code, rest: self },
            _ => Step::Spent(self),
        })
    }

    /// As [`Instance::feed`].
    pub fn feed(&mut self, bytes: &[u8]) -> Result<(), Refused> {
        self.instance.feed(bytes)
    }

    /// As [`Instance::end_input`].
    pub fn end_input(&mut self) -> Result<(), Refused> {
        self.instance.end_input()
    }

    /// The functions at work, the innermost first: where it stopped when its units were used, or at a call of WASI.
    pub fn frames(&mut self) -> Vec<Frame> {
        self.instance.frames()
    }

    /// Goes on until it returns or ends, waits for input, or as many units are used by it; `serve` answers each function of the host.
    pub fn run(self, units: u64, mut serve: impl FnMut(&mut Question<'i, 'a, 's>) -> Option<u64>) -> Result<Step<'i, 'a, 's>, Refused> {
        let end = self.instance.used.saturating_add(units);
        let mut call = self;
        loop {
            let left = end.saturating_sub(call.instance.used);
            call = match call.go(left)? {
                Step::Asked(mut question) => {
                    let value = serve(&mut question);
                    question.answer(value).map_err(|(refused, _)| refused)?
                }
                Step::Called { rest, .. } => rest,
                step => return Ok(step),
            };
        }
    }
}

/// A call of one of the host's functions, which waits for its answer.
#[must_use = "a function of the host is answered"]
pub struct Question<'i, 'a, 's> {
    import: usize,
    arguments: Vec<u64>,
    call: Call<'i, 'a, 's>,
}

impl<'i, 'a, 's> Question<'i, 'a, 's> {
    /// Which import is called, by its index among all.
    pub fn import(&self) -> usize {
        self.import
    }

    /// The first one first.
    pub fn arguments(&self) -> &[u64] {
        &self.arguments
    }

    /// The functions at work, the innermost first: the one that calls the host stands at its call.
    pub fn frames(&mut self) -> Vec<Frame> {
        self.call.frames()
    }

    /// As [`Instance::read`].
    pub fn read(&mut self, address: u32, room: &mut [u8]) -> Result<(), Refused> {
        self.call.instance.read(address, room)
    }

    /// As [`Instance::write`].
    pub fn write(&mut self, address: u32, bytes: &[u8]) -> Result<(), Refused> {
        self.call.instance.write(address, bytes)
    }

    /// Answers with the result, if the function has one, and gives the call back. A refusal gives the question back.
    pub fn answer(self, value: Option<u64>) -> Result<Call<'i, 'a, 's>, (Refused, Question<'i, 'a, 's>)> {
        let results: Vec<u64> = value.into_iter().collect();
        // SAFETY: `raw` is an instance, and the results have their length.
        match answered(unsafe { sys::sandbox_answer(&mut self.call.instance.raw, results.as_ptr(), results.len()) }) {
            Ok(()) => {
                self.call.instance.used += 1; // the unit of the guest's `call`
                Ok(self.call)
            }
            Err(refused) => Err((refused, self)),
        }
    }
}

//! The header `include/sandbox.h`, as far as the safe types need it.
#[repr(C)]
pub struct OpaqueSession([u8; 0]);

#[repr(C)]
pub struct OpaqueModule([u8; 0]);

#[repr(C)]
pub struct OpaquePlugin([u8; 0]);

#[repr(C)]
#[derive(Clone, Copy)]
pub struct Bytes {
    pub at: *const u8,
    pub length: usize,
}

#[repr(C)]
#[derive(Clone, Copy)]
pub struct Preopen {
    pub guest_name: Bytes,
    pub path: Bytes,
}

#[repr(C)]
#[derive(Default)]
pub struct Limits {
    pub pages: u32,
    pub values: u32,
    pub output: u64,
    pub later: [u64; 6],
}

#[repr(C)]
pub struct Supplies {
    pub args: *const Bytes,
    pub args_count: usize,
    pub env: *const Bytes,
    pub env_count: usize,
    pub preopens: *const Preopen,
    pub preopens_count: usize,
    pub moment: u64,
    pub random: Bytes,
    pub limits: Limits,
    pub input: Bytes,
}

#[repr(C)]
pub struct Volume {
    pub kind: u32,
    pub sectors: *const [u8; 512],
    pub sectors_count: usize,
}

#[repr(C)]
#[derive(Default)]
pub struct Told {
    pub kind: u32,
    pub code: u32,
    pub call: u32,
    pub used: u64,
}

#[repr(C)]
#[derive(Default)]
pub struct Why {
    pub fault: u32,
    pub offset: u32,
}

#[repr(C)]
#[derive(Default)]
pub struct Frame {
    pub function: u32,
    pub offset: u32,
}

#[repr(C)]
pub struct Operation {
    pub kind: u32,
    pub sector: u32,
    pub bytes: [u8; 512],
}

extern "C" {
    pub fn sandbox_version() -> u32;
    pub fn sandbox_text(kind: u32, number: u32, room: *mut u8, length: usize) -> usize;
    pub fn sandbox_load_with(module: *mut *mut OpaqueModule, bytes: *const u8, length: usize, floats: u32, why: *mut Why) -> u32;
    pub fn sandbox_prepare_with(module: *mut *mut OpaqueModule, bytes: *const u8, length: usize, limits: *const Limits, floats: u32, why: *mut Why) -> u32;
    pub fn sandbox_module_share(other: *mut *mut OpaqueModule, module: *mut *mut OpaqueModule) -> u32;
    pub fn sandbox_unload(module: *mut *mut OpaqueModule) -> u32;
    pub fn sandbox_open_loaded(
        session: *mut *mut OpaqueSession,
        module: *mut *mut OpaqueModule,
        supplies: *const Supplies,
        volume: *const Volume,
    ) -> u32;
    pub fn sandbox_resume(session: *mut *mut OpaqueSession, units: u64, told: *mut Told) -> u32;
    pub fn sandbox_output(session: *mut *mut OpaqueSession, descriptor: u32, from: usize, room: *mut u8, length: usize) -> usize;
    pub fn sandbox_full(session: *mut *mut OpaqueSession, descriptor: u32) -> u32;
    pub fn sandbox_frame_at(session: *mut *mut OpaqueSession, number: usize, frame: *mut Frame) -> u32;
    pub fn sandbox_function_name(module: *const u8, module_length: usize, function: u32, room: *mut u8, length: usize) -> usize;
    pub fn sandbox_finish(session: *mut *mut OpaqueSession) -> u32;
    pub fn sandbox_volume_out(session: *mut *mut OpaqueSession, room: *mut [u8; 512], count: usize) -> usize;
    pub fn sandbox_operation_at(session: *mut *mut OpaqueSession, number: usize, operation: *mut Operation) -> u32;
    pub fn sandbox_close(session: *mut *mut OpaqueSession) -> u32;
    pub fn sandbox_close_loaded(session: *mut *mut OpaqueSession, module: *mut *mut OpaqueModule) -> u32;
    pub fn sandbox_plugin_load(plugin: *mut *mut OpaquePlugin, bytes: *const u8, length: usize, limits: *const Limits, floats: u32, why: *mut Why) -> u32;
    pub fn sandbox_plugin_load_fed(plugin: *mut *mut OpaquePlugin, bytes: *const u8, length: usize, limits: *const Limits, floats: u32, why: *mut Why) -> u32;
    pub fn sandbox_plugin_share(other: *mut *mut OpaquePlugin, plugin: *mut *mut OpaquePlugin) -> u32;
    pub fn sandbox_plugin_name(plugin: *mut *mut OpaquePlugin, part: u32, index: usize, room: *mut u8, length: usize) -> usize;
    pub fn sandbox_plugin_unload(plugin: *mut *mut OpaquePlugin) -> u32;
    pub fn sandbox_instance_open(
        instance: *mut *mut OpaqueSession,
        plugin: *mut *mut OpaquePlugin,
        supplies: *const Supplies,
        volume: *const Volume,
    ) -> u32;
    pub fn sandbox_invoke(instance: *mut *mut OpaqueSession, name: *const u8, name_length: usize, arguments: *const u64, count: usize) -> u32;
    pub fn sandbox_go(instance: *mut *mut OpaqueSession, units: u64, told: *mut Told) -> u32;
    pub fn sandbox_values(instance: *mut *mut OpaqueSession, room: *mut u64, length: usize) -> usize;
    pub fn sandbox_answer(instance: *mut *mut OpaqueSession, results: *const u64, count: usize) -> u32;
    pub fn sandbox_abandon(instance: *mut *mut OpaqueSession) -> u32;
    pub fn sandbox_feed(instance: *mut *mut OpaqueSession, bytes: *const u8, length: usize) -> u32;
    pub fn sandbox_feed_end(instance: *mut *mut OpaqueSession) -> u32;
    pub fn sandbox_memory_size(instance: *mut *mut OpaqueSession) -> usize;
    pub fn sandbox_memory_read(instance: *mut *mut OpaqueSession, address: u32, room: *mut u8, length: usize) -> u32;
    pub fn sandbox_memory_write(instance: *mut *mut OpaqueSession, address: u32, bytes: *const u8, length: usize) -> u32;
    pub fn sandbox_instance_finish(instance: *mut *mut OpaqueSession) -> u32;
    pub fn sandbox_format(sectors: *mut [u8; 512], count: usize, slots: u32) -> u32;
    pub fn sandbox_format_huge(sectors: *mut [u8; 512], count: usize, slots: u32) -> u32;
}

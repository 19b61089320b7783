//! The static library as it is: bindings/c/memoir.h says what each function does, and what each number means.

pub const CELL: usize = 104;
pub const KEY: usize = 32;
pub const REGISTER: usize = 32;
pub const LONGEST_REQUEST: usize = 4096;
pub const RECORD: usize = 48 + LONGEST_REQUEST;
pub const STEPS: usize = 5;
pub const LINES: usize = 63 * (LONGEST_REQUEST + 1) + 1;

pub const DONE: u32 = 0;
pub const MEMORY: u32 = 1;
pub const LONG: u32 = 2;
pub const DEVICE: u32 = 3;
pub const BLANK: u32 = 4;
pub const OTHER_CELL: u32 = 5;
pub const LOST: u32 = 6;
pub const FORM: u32 = 7;
pub const KIND: u32 = 8;
pub const STATE: u32 = 9;
pub const TAG: u32 = 10;
pub const STALE: u32 = 11;
pub const FULL: u32 = 12;
pub const NEXT: u32 = 16;
pub const DIFFERS: u32 = 17;
pub const NO_SEGMENT: u32 = 18;
pub const ALREADY: u32 = 19;
pub const OPEN: u32 = 20;
pub const GONE: u32 = 21;
pub const NONCE: u32 = 22;
pub const BARRIER: u32 = 23;
pub const AGAIN: u32 = 24;
pub const NO_VARIANT: u32 = 32;
pub const NO_MODULE: u32 = 33;
pub const TOO_MANY: u32 = 34;
pub const NO_STEP: u32 = 35;
pub const NO_ROOM: u32 = 36;
pub const NO_KEY: u32 = 37;
pub const NO_POSITION: u32 = 38;

pub const BASIC: u8 = 1;
pub const OPT: u8 = 2;

pub const READ_CELL: u8 = 1;
pub const WRITE_CELL: u8 = 2;
pub const READ_REGISTER: u8 = 3;
pub const RESET_REGISTER: u8 = 4;
pub const EXTEND_REGISTER: u8 = 5;

pub const OK: u8 = 0;
pub const FAILED: u8 = 1;
pub const OFF: u8 = 2;

#[repr(C)]
#[derive(Clone, Copy)]
pub struct Instance {
    pub variant: u8,
    pub module: u8,
}

#[repr(C)]
#[derive(Clone, Copy)]
pub struct Step {
    pub kind: u8,
    pub answer: u8,
    pub bytes: [u8; CELL],
}

#[repr(C)]
#[derive(Clone, Copy)]
pub struct Reply {
    pub position: u64,
    pub output_length: usize,
    pub snapshot_length: usize,
    pub again: u8,
    pub next: Step,
}

#[repr(C)]
#[derive(Clone, Copy)]
pub struct Keys {
    pub key: [u8; KEY],
    pub barrier: [u8; KEY],
}

#[repr(C)]
#[derive(Clone, Copy)]
pub struct Text {
    pub length: usize,
    pub tag: [u8; 32],
}

#[repr(C)]
#[derive(Clone, Copy)]
pub struct Kept {
    pub key: [u8; KEY],
    pub last: Text,
    pub before: Text,
}

#[repr(C)]
#[derive(Clone, Copy)]
pub struct First {
    pub snapshot_length: usize,
    pub cell: [u8; CELL],
}

#[repr(C)]
#[derive(Clone, Copy)]
pub struct Moved {
    pub length: usize,
    pub position: u64,
    pub next: Step,
}

extern "C" {
    pub fn memoir_module_id(name: *const u8, name_length: usize) -> u8;
    pub fn memoir_cell_instance(cell: *const [u8; CELL], instance: *mut Instance) -> u32;
    pub fn memoir_room(module: u8) -> usize;
    pub fn memoir_provision(
        instance: *const Instance,
        keys: *const Keys,
        first: *mut First,
        room: *mut u8,
        room_length: usize,
    ) -> u32;
    pub fn memoir_ask(
        instance: *const Instance,
        steps: *const Step,
        step_count: usize,
        offer: *const u8,
        offer_length: usize,
        request: *const u8,
        request_length: usize,
        reply: *mut Reply,
        room: *mut u8,
        room_length: usize,
    ) -> u32;
    pub fn memoir_ask_batch(
        instance: *const Instance,
        steps: *const Step,
        step_count: usize,
        offer: *const u8,
        offer_length: usize,
        requests: *const u8,
        requests_length: usize,
        reply: *mut Reply,
        room: *mut u8,
        room_length: usize,
    ) -> u32;
    pub fn memoir_forget(kept: *mut Kept);
    pub fn memoir_is_kept(kept: *const Kept, memory: *const u8, memory_length: usize) -> u8;
    pub fn memoir_ask_keeping(
        instance: *const Instance,
        steps: *const Step,
        step_count: usize,
        offer: *const u8,
        offer_length: usize,
        request: *const u8,
        request_length: usize,
        kept: *mut Kept,
        memory: *mut u8,
        memory_length: usize,
        reply: *mut Reply,
        room: *mut u8,
        room_length: usize,
    ) -> u32;
    pub fn memoir_checkpoint(steps: *const Step, step_count: usize, next: *mut Step) -> u32;
    pub fn memoir_invite(
        instance: *const Instance,
        steps: *const Step,
        step_count: usize,
        link: *const Keys,
        nonce: *const [u8; KEY],
        key: *const [u8; KEY],
        next: *mut Step,
    ) -> u32;
    pub fn memoir_retire(
        instance: *const Instance,
        steps: *const Step,
        step_count: usize,
        link: *const Keys,
        nonce: *const [u8; KEY],
        offer: *const u8,
        offer_length: usize,
        reply: *mut Moved,
        room: *mut u8,
        room_length: usize,
    ) -> u32;
    pub fn memoir_accept(
        instance: *const Instance,
        steps: *const Step,
        step_count: usize,
        link: *const Keys,
        ticket: *const u8,
        ticket_length: usize,
        reply: *mut Moved,
        room: *mut u8,
        room_length: usize,
    ) -> u32;
    pub fn memoir_pending(
        position: u64,
        request: *const u8,
        request_length: usize,
        record_length: *mut usize,
        room: *mut u8,
        room_length: usize,
    ) -> u32;
    pub fn memoir_read_pending(
        slot: u8,
        record: *const u8,
        record_length: usize,
        position: *mut u64,
        request_length: *mut usize,
        room: *mut u8,
        room_length: usize,
    ) -> u32;
    pub fn memoir_receipt_verify(
        key: *const u8,
        key_length: usize,
        position: u64,
        request: *const u8,
        request_length: usize,
        output: *const u8,
        output_length: usize,
    ) -> u32;
}

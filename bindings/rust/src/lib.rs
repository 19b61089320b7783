//! The proved cores of memoir over devices of your own: give [`Core::ask`] the five steps of [`Devices`], or [`Host`] these and
//! four slots, and it keeps snapshots and records and goes on after any stop. bindings/c/memoir.h says what is asked of devices.
//!
//! What is proved ends at the static library's functions. This crate makes the steps that these tell, and nothing else.

mod host;
mod moves;
pub mod sys;

pub use host::{Host, HostFault, Store};
pub use moves::{Accepted, Invited, Link, MoveRefusal};

use sys::{CELL, KEY, REGISTER};

/// How a device step fails.
#[derive(Clone, Copy, Debug, PartialEq, Eq)]
pub enum Fault {
    /// The effect is made or it isn't, and the platform stays on.
    Failed,
    /// The same, and the platform may be off.
    Off,
}

/// A platform's devices: a cell of 104 bytes that the host can't put back, and a register of 32. Basic never uses the
/// register.
pub trait Devices {
    /// Gives the cell.
    fn read_cell(&mut self) -> Result<[u8; CELL], Fault>;
    /// Writes the cell, as a whole or not at all. After Ok it outlives a loss of power.
    fn write_cell(&mut self, bytes: &[u8; CELL]) -> Result<(), Fault>;
    /// Gives the register.
    fn read_register(&mut self) -> Result<[u8; REGISTER], Fault>;
    /// Sets the register to zero.
    fn reset_register(&mut self) -> Result<(), Fault>;
    /// Puts SHA-256 of the register and the value into the register.
    fn extend_register(&mut self, value: &[u8; REGISTER]) -> Result<(), Fault>;
}

/// How a platform keeps its place.
#[derive(Clone, Copy, Debug, PartialEq, Eq)]
pub enum Variant {
    /// One write of the cell for each request.
    Basic,
    /// One extension of the register for each request; the cell is written once a segment.
    Opt,
}

/// Why a call was refused.
#[derive(Clone, Copy, Debug, PartialEq, Eq)]
pub enum Refusal {
    /// Want of memory; nothing was changed.
    Memory,
    /// The request has more than 4,096 bytes, or an LF.
    Long,
    /// A device's step failed, or memory was wanting behind a changing step: the request was committed or not. Ask the
    /// same request again on the same snapshot, and nothing else before.
    Device,
    /// The cell is blank.
    Blank,
    /// The cell isn't one of this variant and module.
    Cell,
    /// Power was lost inside an open segment of Opt.
    Lost,
    /// The offered bytes are no snapshot.
    Form,
    /// The snapshot is of another variant or module; or a checkpoint in Basic.
    Kind,
    /// The snapshot's state isn't one of the module's.
    State,
    /// The snapshot isn't sealed under the cell's key.
    Tag,
    /// The snapshot is neither the newest nor the one before a repeated request.
    Stale,
    /// There are no positions left.
    Full,
}

/// What a call answers.
#[derive(Clone, Debug, PartialEq, Eq)]
pub struct Answer {
    /// Whether the request had been committed before.
    pub again: bool,
    /// The position of the request.
    pub position: u64,
    /// What the module says.
    pub output: Vec<u8>,
    /// The newest snapshot.
    pub snapshot: Vec<u8>,
}

/// The first cell and snapshot of an instance.
#[derive(Clone, Debug, PartialEq, Eq)]
pub struct First {
    pub cell: [u8; CELL],
    pub snapshot: Vec<u8>,
}

/// What a checkpoint did.
#[derive(Clone, Copy, Debug, PartialEq, Eq)]
pub enum Checkpointed {
    /// The open segment is closed.
    Done,
    /// No segment was open, and nothing has changed.
    NoSegment,
}

/// The core of a variant and module. It keeps nothing but room, and what was sealed last, so that it isn't sealed anew.
pub struct Core {
    instance: sys::Instance,
    room: Vec<u8>,
    kept: sys::Kept,
    memory: Vec<u8>,
}

/// A step of which nothing is known.
const NO_STEP: sys::Step = sys::Step {
    kind: 0,
    answer: 0,
    bytes: [0; CELL],
};

/// A reply that says nothing.
const NO_REPLY: sys::Reply = sys::Reply {
    position: 0,
    output_length: 0,
    snapshot_length: 0,
    again: 0,
    next: NO_STEP,
};

impl Core {
    /// The core of the module with this name, as "limiter"; None where no module has it.
    pub fn new(variant: Variant, module: &str) -> Option<Core> {
        let variant = match variant {
            Variant::Basic => sys::BASIC,
            Variant::Opt => sys::OPT,
        };
        // SAFETY: each pointer is a slice's, with its length.
        let module = unsafe { sys::memoir_module_id(module.as_ptr(), module.len()) };
        (module != 0).then(|| Core::of(sys::Instance { variant, module }))
    }

    /// The core of the variant and module of a cell; None where it is blank, or none that this library knows.
    pub fn of_cell(cell: &[u8; CELL]) -> Option<Core> {
        let mut instance = sys::Instance {
            variant: 0,
            module: 0,
        };
        // SAFETY: references.
        let said = unsafe { sys::memoir_cell_instance(cell, &mut instance) };
        (said == sys::DONE).then(|| Core::of(instance))
    }

    fn of(instance: sys::Instance) -> Core {
        let none = sys::Text {
            length: 0,
            tag: [0; 32],
        };
        let mut kept = sys::Kept {
            key: [0; KEY],
            last: none,
            before: none,
        };
        // SAFETY: takes a number; and a reference.
        let room = unsafe {
            sys::memoir_forget(&mut kept);
            sys::memoir_room(instance.module)
        };
        Core {
            instance,
            room: vec![0; room],
            kept,
            memory: vec![0; 2 * room],
        }
    }

    /// The first cell and snapshot under a key and a barrier of 32 secret random bytes each. Keep the snapshot, and write
    /// the cell last.
    pub fn provision(&mut self, key: &[u8; KEY], barrier: &[u8; KEY]) -> Result<First, Refusal> {
        let keys = sys::Keys {
            key: *key,
            barrier: *barrier,
        };
        let mut first = sys::First {
            snapshot_length: 0,
            cell: [0; CELL],
        };
        let room = &mut self.room;
        // SAFETY: references, and a slice with its length.
        let said = unsafe {
            sys::memoir_provision(
                &self.instance,
                &keys,
                &mut first,
                room.as_mut_ptr(),
                room.len(),
            )
        };
        done(said)?;
        Ok(First {
            cell: first.cell,
            snapshot: self.room[..first.snapshot_length].to_vec(),
        })
    }

    /// Asks for a request, offering a snapshot.
    pub fn ask<D: Devices>(
        &mut self,
        devices: &mut D,
        offer: &[u8],
        request: &[u8],
    ) -> Result<Answer, Refusal> {
        let reply = by_steps(devices, |steps, reply| {
            self.come_to(steps, offer, request, reply)
        })?;
        Ok(self.answer(&reply))
    }

    /// Asks for up to 64 requests, the pieces of this text between bytes TAB, under one commit: for one write of the cell in
    /// Basic. The answer has the last one's position, and a line for each as its output. It is asked again by the very same
    /// text, on the same snapshot; slots and records are for single requests.
    pub fn ask_batch<D: Devices>(
        &mut self,
        devices: &mut D,
        offer: &[u8],
        requests: &[u8],
    ) -> Result<Answer, Refusal> {
        let room = self.room.len() + sys::LINES;
        let mut room = vec![0; room];
        let instance = self.instance;
        let reply = by_steps(devices, |steps, reply| {
            // SAFETY: references, and slices with their lengths; nothing that is written overlaps another.
            unsafe {
                sys::memoir_ask_batch(
                    &instance,
                    steps.as_ptr(),
                    steps.len(),
                    offer.as_ptr(),
                    offer.len(),
                    requests.as_ptr(),
                    requests.len(),
                    reply,
                    room.as_mut_ptr(),
                    room.len(),
                )
            }
        })?;
        Ok(answer_in(&room, &reply))
    }

    /// Closes the open segment of Opt, so that power may be lost.
    pub fn checkpoint<D: Devices>(&mut self, devices: &mut D) -> Result<Checkpointed, Refusal> {
        let mut steps = [NO_STEP; sys::STEPS];
        let mut next = NO_STEP;
        for made in 0..sys::STEPS {
            // SAFETY: as many steps as were made, and a reference.
            match unsafe { sys::memoir_checkpoint(steps.as_ptr(), made, &mut next) } {
                sys::NEXT => steps[made] = make(devices, next),
                sys::NO_SEGMENT => return Ok(Checkpointed::NoSegment),
                said => return done(said).map(|()| Checkpointed::Done),
            }
        }
        Err(Refusal::Device)
    }

    fn come_to(
        &mut self,
        steps: &[sys::Step],
        offer: &[u8],
        request: &[u8],
        reply: &mut sys::Reply,
    ) -> u32 {
        // SAFETY: references, and slices with their lengths; nothing that is written overlaps another; and what is kept
        // is written by these functions alone.
        unsafe {
            sys::memoir_ask_keeping(
                &self.instance,
                steps.as_ptr(),
                steps.len(),
                offer.as_ptr(),
                offer.len(),
                request.as_ptr(),
                request.len(),
                &mut self.kept,
                self.memory.as_mut_ptr(),
                self.memory.len(),
                reply,
                self.room.as_mut_ptr(),
                self.room.len(),
            )
        }
    }

    fn answer(&self, reply: &sys::Reply) -> Answer {
        answer_in(&self.room, reply)
    }
}

// What the front of a room has.
fn answer_in(room: &[u8], reply: &sys::Reply) -> Answer {
    let (output, rest) = room.split_at(reply.output_length);
    Answer {
        again: reply.again != 0,
        position: reply.position,
        output: output.to_vec(),
        snapshot: rest[..reply.snapshot_length].to_vec(),
    }
}

// Makes the steps of a call as it tells them, until it is over.
fn by_steps<D: Devices>(
    devices: &mut D,
    mut call: impl FnMut(&[sys::Step], &mut sys::Reply) -> u32,
) -> Result<sys::Reply, Refusal> {
    let mut steps = [NO_STEP; sys::STEPS];
    let mut reply = NO_REPLY;
    for made in 0..=sys::STEPS {
        match call(&steps[..made], &mut reply) {
            sys::NEXT if made < sys::STEPS => steps[made] = make(devices, reply.next),
            sys::MEMORY if has_changed(&steps[..made]) => return Err(Refusal::Device),
            said => return done(said).map(|()| reply),
        }
    }
    Err(Refusal::Device)
}

// Makes the step, and notes what the device answered.
fn make<D: Devices>(devices: &mut D, mut step: sys::Step) -> sys::Step {
    let mut value = [0; REGISTER];
    value.copy_from_slice(&step.bytes[..REGISTER]);
    let answer = match step.kind {
        sys::READ_CELL => devices.read_cell().map(|bytes| step.bytes = bytes),
        sys::WRITE_CELL => devices.write_cell(&step.bytes),
        sys::READ_REGISTER => devices
            .read_register()
            .map(|bytes| step.bytes[..REGISTER].copy_from_slice(&bytes)),
        sys::RESET_REGISTER => devices.reset_register(),
        _ => devices.extend_register(&value),
    };
    step.answer = match answer {
        Ok(()) => sys::OK,
        Err(Fault::Failed) => sys::FAILED,
        Err(Fault::Off) => sys::OFF,
    };
    step
}

// Whether a step was made that changes something.
fn has_changed(steps: &[sys::Step]) -> bool {
    steps
        .iter()
        .any(|step| !matches!(step.kind, sys::READ_CELL | sys::READ_REGISTER))
}

// What the core says, as a result.
fn done(said: u32) -> Result<(), Refusal> {
    match said {
        sys::DONE => Ok(()),
        sys::MEMORY => Err(Refusal::Memory),
        sys::LONG => Err(Refusal::Long),
        sys::DEVICE => Err(Refusal::Device),
        sys::BLANK => Err(Refusal::Blank),
        sys::OTHER_CELL => Err(Refusal::Cell),
        sys::LOST => Err(Refusal::Lost),
        sys::FORM => Err(Refusal::Form),
        sys::KIND => Err(Refusal::Kind),
        sys::STATE => Err(Refusal::State),
        sys::TAG => Err(Refusal::Tag),
        sys::STALE => Err(Refusal::Stale),
        sys::FULL => Err(Refusal::Full),
        // No call of this crate leads to another number; the request would be in doubt.
        _ => Err(Refusal::Device),
    }
}

/// The record of the request that is to take this position, 1 to 2^48. None where there is no such position, the request
/// is too long or memory is wanting.
pub fn pending(position: u64, request: &[u8]) -> Option<Vec<u8>> {
    let mut room = vec![0; sys::RECORD];
    let mut length = 0;
    // SAFETY: slices with their lengths, and a reference.
    let said = unsafe {
        sys::memoir_pending(
            position,
            request.as_ptr(),
            request.len(),
            &mut length,
            room.as_mut_ptr(),
            room.len(),
        )
    };
    room.truncate(length);
    (said == sys::DONE).then_some(room)
}

/// The position and the request of the record that the bytes of slot 2 or 3 are. None where they are no valid record.
pub fn read_pending(slot: u8, record: &[u8]) -> Option<(u64, Vec<u8>)> {
    let mut room = vec![0; sys::LONGEST_REQUEST];
    let (mut position, mut length) = (0, 0);
    // SAFETY: slices with their lengths, and references.
    let said = unsafe {
        sys::memoir_read_pending(
            slot,
            record.as_ptr(),
            record.len(),
            &mut position,
            &mut length,
            room.as_mut_ptr(),
            room.len(),
        )
    };
    room.truncate(length);
    (said == sys::DONE).then_some((position, room))
}

/// Whether an output is the receipt, under this key, of what was said to this request at this position.
pub fn is_receipt(key: &[u8; KEY], position: u64, request: &[u8], output: &[u8]) -> bool {
    // SAFETY: slices with their lengths.
    let said = unsafe {
        sys::memoir_receipt_verify(
            key.as_ptr(),
            key.len(),
            position,
            request.as_ptr(),
            request.len(),
            output.as_ptr(),
            output.len(),
        )
    };
    said == sys::DONE
}

//! A whole host of an instance: it keeps snapshots and records in four slots, and goes on after any stop.

use crate::{pending, read_pending, Answer, Checkpointed, Core, Devices, Fault, Refusal, Variant};

/// Four slots: 0 and 1 have snapshots, 2 and 3 records. One that was never written has no bytes.
pub trait Store {
    /// Why a slot can't be read or written.
    type Fault;
    /// The bytes of a slot. What an earlier program left there is written again and synced before: a system may answer that
    /// a sync is done whose bytes it lost before.
    fn read(&mut self, slot: usize) -> Result<Vec<u8>, Self::Fault>;
    /// Puts these bytes into a slot. After Ok they are on the disk, under their name.
    fn write(&mut self, slot: usize, bytes: &[u8]) -> Result<(), Self::Fault>;
}

/// Why a host can't go on.
#[derive(Clone, Copy, Debug, PartialEq, Eq)]
pub enum HostFault<E> {
    /// The core refused. After Memory and Device ask for nothing else before [`Host::resume`].
    Refused(Refusal),
    /// A slot failed: so too.
    Store(E),
    /// The cell isn't blank: there is an instance already.
    Already,
}

/// An instance that is served, over its devices and slots.
pub struct Host<D, S> {
    core: Core,
    pub devices: D,
    pub store: S,
    position: u64,
    snapshot: Vec<u8>,
}

type Came<T, S> = Result<T, HostFault<<S as Store>::Fault>>;

impl<D: Devices, S: Store> Host<D, S> {
    /// Makes an instance on a blank cell, under a key and a barrier of 32 secret random bytes each: the slots, and the cell
    /// last, before which nothing exists.
    pub fn provision(
        variant: Variant,
        module: &str,
        (key, barrier): (&[u8; 32], &[u8; 32]),
        devices: &mut D,
        store: &mut S,
    ) -> Came<(), S> {
        let mut core = Core::new(variant, module).ok_or(HostFault::Refused(Refusal::Cell))?;
        if devices.read_cell().map_err(device)? != [0; 104] {
            return Err(HostFault::Already);
        }
        let first = core.provision(key, barrier).map_err(HostFault::Refused)?;
        for slot in 1..4 {
            store.write(slot, &[]).map_err(HostFault::Store)?;
        }
        store.write(0, &first.snapshot).map_err(HostFault::Store)?;
        devices.write_cell(&first.cell).map_err(device)
    }

    /// The instance that the cell has. Call [`Host::resume`] before anything else.
    pub fn open(mut devices: D, store: S) -> Came<Host<D, S>, S> {
        let cell = devices.read_cell().map_err(device)?;
        let core = match Core::of_cell(&cell) {
            None if cell == [0; 104] => return Err(HostFault::Refused(Refusal::Blank)),
            None => return Err(HostFault::Refused(Refusal::Cell)),
            Some(core) => core,
        };
        Ok(Host {
            core,
            devices,
            store,
            position: 0,
            snapshot: vec![],
        })
    }

    /// Goes on after a stop: asks the request of the later record once more. None where nothing was asked yet.
    pub fn resume(&mut self) -> Came<Option<Answer>, S> {
        let mut waiting = None;
        for slot in [2, 3] {
            let bytes = self.store.read(slot).map_err(HostFault::Store)?;
            waiting = waiting.max(read_pending(slot as u8, &bytes));
        }
        let slot = waiting
            .as_ref()
            .map_or(0, |(position, _)| (position - 1) % 2);
        self.snapshot = self.store.read(slot as usize).map_err(HostFault::Store)?;
        self.position = 0;
        match waiting {
            None => Ok(None),
            Some((_, request)) => self.ask_and_keep(&request).map(Some),
        }
    }

    /// Asks the next request, once its record is kept.
    pub fn ask(&mut self, request: &[u8]) -> Came<Answer, S> {
        let next = self.position + 1;
        // Behind the last position there is no record, and the core answers Full.
        if next <= 1 << 48 {
            let record = pending(next, request).ok_or(HostFault::Refused(Refusal::Long))?;
            self.store
                .write(2 + (next % 2) as usize, &record)
                .map_err(HostFault::Store)?;
        }
        self.ask_and_keep(request)
    }

    /// Asks for up to 64 requests under one commit, as [`Core::ask_batch`] does. No record is kept of them: after
    /// [`Refusal::Device`] ask the very same text again, and nothing else before. So it is for a program that keeps the text
    /// and the snapshot it was asked on itself, or has nothing that outlives it.
    pub fn ask_batch(&mut self, requests: &[u8]) -> Came<Answer, S> {
        let answer = self
            .core
            .ask_batch(&mut self.devices, &self.snapshot, requests)
            .map_err(HostFault::Refused)?;
        self.keep(answer)
    }

    /// Closes the open segment of Opt, so that power may be lost.
    pub fn checkpoint(&mut self) -> Result<Checkpointed, Refusal> {
        self.core.checkpoint(&mut self.devices)
    }

    // Asks with the newest snapshot, and keeps the answer's.
    fn ask_and_keep(&mut self, request: &[u8]) -> Came<Answer, S> {
        let answer = self
            .core
            .ask(&mut self.devices, &self.snapshot, request)
            .map_err(HostFault::Refused)?;
        self.keep(answer)
    }

    fn keep(&mut self, answer: Answer) -> Came<Answer, S> {
        self.position = answer.position;
        self.snapshot.clone_from(&answer.snapshot);
        self.store
            .write((answer.position % 2) as usize, &answer.snapshot)
            .map_err(HostFault::Store)?;
        Ok(answer)
    }
}

fn device<E>(_: Fault) -> HostFault<E> {
    HostFault::Refused(Refusal::Device)
}

//! A module leaves one platform for another, with its one list of requests.

use crate::{done, has_changed, make, sys, Core, Devices, Refusal, NO_STEP};
use sys::KEY;

/// What the platforms share between which modules move: 64 secret random bytes. Basic ignores the barrier.
#[derive(Clone, Copy)]
pub struct Link {
    pub key: [u8; KEY],
    pub barrier: [u8; KEY],
}

/// Why a move was refused. Nothing was changed, but after a core's [`Refusal::Device`] it was made or it wasn't: make the
/// same again.
#[derive(Clone, Copy, Debug, PartialEq, Eq)]
pub enum MoveRefusal {
    /// As a call is refused for the same.
    Core(Refusal),
    /// The platform has a module, or waits for another ticket.
    Already,
    /// A segment is open.
    Open,
    /// The module has left the platform.
    Gone,
    /// The platform waits for a ticket with another nonce.
    Nonce,
    /// The cell has another barrier than the link.
    Barrier,
}

/// How an invitation was answered.
#[derive(Clone, Copy, Debug, PartialEq, Eq)]
pub enum Invited {
    /// The platform waits from now on.
    Done,
    /// It was invited before, just so.
    Again,
}

/// The module is on the platform.
#[derive(Clone, Debug, PartialEq, Eq)]
pub struct Accepted {
    /// The position of the last request that was answered, 0 before the first.
    pub position: u64,
    /// The newest snapshot.
    pub snapshot: Vec<u8>,
}

impl Core {
    /// Invites the module to a platform that is blank or was left: its cell waits for the ticket with this nonce, and seals
    /// under this key. Both are new random bytes for each invitation, kept before it, so that it can be made again.
    pub fn invite<D: Devices>(
        &mut self,
        devices: &mut D,
        link: &Link,
        (nonce, key): (&[u8; KEY], &[u8; KEY]),
    ) -> Result<Invited, MoveRefusal> {
        let instance = self.instance;
        let keys = keys_of(link);
        // SAFETY: references, and a slice with its length.
        let (said, _) = by_moves(devices, |steps, reply| unsafe {
            sys::memoir_invite(
                &instance,
                steps.as_ptr(),
                steps.len(),
                &keys,
                nonce,
                key,
                &mut reply.next,
            )
        });
        match said {
            sys::AGAIN => Ok(Invited::Again),
            said => moved(said).map(|()| Invited::Done),
        }
    }

    /// Retires the platform: the module leaves for the one that waits for this nonce. Gives the ticket, again where it was
    /// made before. Offer the newest snapshot; in Opt close the segment first.
    pub fn retire<D: Devices>(
        &mut self,
        devices: &mut D,
        link: &Link,
        nonce: &[u8; KEY],
        offer: &[u8],
    ) -> Result<Vec<u8>, MoveRefusal> {
        let instance = self.instance;
        let keys = keys_of(link);
        let room = &mut self.room;
        // SAFETY: references, and slices with their lengths; nothing that is written overlaps another.
        let (said, reply) = by_moves(devices, |steps, reply| unsafe {
            sys::memoir_retire(
                &instance,
                steps.as_ptr(),
                steps.len(),
                &keys,
                nonce,
                offer.as_ptr(),
                offer.len(),
                reply,
                room.as_mut_ptr(),
                room.len(),
            )
        });
        moved(said)?;
        Ok(self.room[..reply.length].to_vec())
    }

    /// Accepts a ticket: the module is on this platform from then on, where it left the other. Until the first request is
    /// asked here it gives the same again.
    pub fn accept<D: Devices>(
        &mut self,
        devices: &mut D,
        link: &Link,
        ticket: &[u8],
    ) -> Result<Accepted, MoveRefusal> {
        let instance = self.instance;
        let keys = keys_of(link);
        let room = &mut self.room;
        // SAFETY: references, and slices with their lengths; nothing that is written overlaps another.
        let (said, reply) = by_moves(devices, |steps, reply| unsafe {
            sys::memoir_accept(
                &instance,
                steps.as_ptr(),
                steps.len(),
                &keys,
                ticket.as_ptr(),
                ticket.len(),
                reply,
                room.as_mut_ptr(),
                room.len(),
            )
        });
        moved(said)?;
        Ok(Accepted {
            position: reply.position,
            snapshot: self.room[..reply.length].to_vec(),
        })
    }
}

fn keys_of(link: &Link) -> sys::Keys {
    sys::Keys {
        key: link.key,
        barrier: link.barrier,
    }
}

// Makes the steps of a move as it tells them, until it is over.
fn by_moves<D: Devices>(
    devices: &mut D,
    mut call: impl FnMut(&[sys::Step], &mut sys::Moved) -> u32,
) -> (u32, sys::Moved) {
    let mut steps = [NO_STEP; sys::STEPS];
    let mut reply = sys::Moved {
        length: 0,
        position: 0,
        next: NO_STEP,
    };
    for made in 0..sys::STEPS {
        match call(&steps[..made], &mut reply) {
            sys::NEXT => steps[made] = make(devices, reply.next),
            sys::MEMORY if has_changed(&steps[..made]) => return (sys::DEVICE, reply),
            said => return (said, reply),
        }
    }
    (sys::DIFFERS, reply)
}

// What a move says, as a result.
fn moved(said: u32) -> Result<(), MoveRefusal> {
    match said {
        sys::ALREADY => Err(MoveRefusal::Already),
        sys::OPEN => Err(MoveRefusal::Open),
        sys::GONE => Err(MoveRefusal::Gone),
        sys::NONCE => Err(MoveRefusal::Nonce),
        sys::BARRIER => Err(MoveRefusal::Barrier),
        said => done(said).map_err(MoveRefusal::Core),
    }
}

//! A limiter that moves between two platforms in plain memory, in Basic: what it tells is what `memoir transfer` tells.
//!
//!     moved <LINES
//!
//! Each line is a platform's number and a request, `invite`, `retire` or `accept`. Each move whose cell's write was lost by a
//! fault is made again: the device fails at every other write, behind its effect.

use memoir_core::{Core, Devices, Fault, Invited, Link, MoveRefusal, Refusal, Variant};
use std::io::{self, BufRead};

/// A cell. Every other write of it answers that it failed, though it is made.
struct Cell {
    bytes: [u8; 104],
    writes: u32,
}

impl Devices for Cell {
    fn read_cell(&mut self) -> Result<[u8; 104], Fault> {
        Ok(self.bytes)
    }

    fn write_cell(&mut self, bytes: &[u8; 104]) -> Result<(), Fault> {
        self.bytes = *bytes;
        self.writes += 1;
        match self.writes % 2 {
            0 => Err(Fault::Failed),
            _ => Ok(()),
        }
    }

    fn read_register(&mut self) -> Result<[u8; 32], Fault> {
        Err(Fault::Failed)
    }

    fn reset_register(&mut self) -> Result<(), Fault> {
        Err(Fault::Failed)
    }

    fn extend_register(&mut self, _: &[u8; 32]) -> Result<(), Fault> {
        Err(Fault::Failed)
    }
}

/// Two platforms, each with its newest snapshot; and what goes between them.
struct Two {
    core: Core,
    link: Link,
    cells: [Cell; 2],
    snapshots: [Vec<u8>; 2],
    nonce: [u8; 32],
    ticket: Vec<u8>,
    tickets: u32,
}

/// Made again until the device doesn't fail.
fn again<T>(mut make: impl FnMut() -> Result<T, MoveRefusal>) -> Result<T, MoveRefusal> {
    loop {
        match make() {
            Err(MoveRefusal::Core(Refusal::Device)) => {}
            came => return came,
        }
    }
}

impl Two {
    fn new() -> Two {
        let mut core = Core::new(Variant::Basic, "limiter").expect("there is a limiter");
        let own = |from: u8| std::array::from_fn(|i| from + i as u8);
        let link = Link {
            key: own(0x60),
            barrier: own(0x20),
        };
        let first = core.provision(&own(0), &own(0x20)).expect("room");
        let cell = |bytes| Cell { bytes, writes: 0 };
        Two {
            core,
            link,
            cells: [cell(first.cell), cell([0; 104])],
            snapshots: [first.snapshot, vec![]],
            nonce: [0; 32],
            ticket: vec![],
            tickets: 0,
        }
    }

    fn ask(&mut self, at: usize, request: &str) -> String {
        let (core, cell, snapshot) = (&mut self.core, &mut self.cells[at], &self.snapshots[at]);
        let came = again(|| {
            core.ask(cell, snapshot, request.as_bytes())
                .map_err(MoveRefusal::Core)
        });
        match came {
            Ok(answer) => {
                self.snapshots[at] = answer.snapshot;
                // (a repeat behind a fault is the answer that was lost)
                format!(
                    "ok {} {}",
                    answer.position,
                    String::from_utf8_lossy(&answer.output)
                )
            }
            Err(refusal) => refused(refusal),
        }
    }

    fn invite(&mut self, at: usize) -> String {
        let key = std::array::from_fn(|i| 0x40 * at as u8 + i as u8);
        let (core, cell, link, nonce) = (
            &mut self.core,
            &mut self.cells[at],
            &self.link,
            &mut self.nonce,
        );
        *nonce = [nonce[0] + 1; 32];
        match again(|| core.invite(cell, link, (nonce, &key))) {
            Ok(Invited::Done | Invited::Again) => "invited".into(),
            Err(refusal) => refused(refusal),
        }
    }

    fn retire(&mut self, at: usize) -> String {
        let (core, cell, link, offer) = (
            &mut self.core,
            &mut self.cells[at],
            &self.link,
            &self.snapshots[at],
        );
        match again(|| core.retire(cell, link, &self.nonce, offer)) {
            Ok(ticket) => {
                self.ticket = ticket;
                self.tickets += 1;
                format!("retired {}", self.tickets - 1)
            }
            Err(refusal) => refused(refusal),
        }
    }

    fn accept(&mut self, at: usize) -> String {
        let (core, cell, link, ticket) = (
            &mut self.core,
            &mut self.cells[at],
            &self.link,
            &self.ticket,
        );
        match again(|| core.accept(cell, link, ticket)) {
            Ok(accepted) => {
                self.snapshots[at] = accepted.snapshot;
                format!("accepted {}", accepted.position)
            }
            Err(refusal) => refused(refusal),
        }
    }
}

fn refused(refusal: MoveRefusal) -> String {
    match refusal {
        MoveRefusal::Core(refusal) => format!("no {refusal:?}").to_lowercase(),
        refusal => format!("no {refusal:?}").to_lowercase(),
    }
}

fn main() -> io::Result<()> {
    let mut two = Two::new();
    for line in io::stdin().lock().lines() {
        let line = line?;
        let at = usize::from(line.starts_with('1'));
        let told = match &line[2..] {
            "invite" => two.invite(at),
            "retire" => two.retire(at),
            "accept" => two.accept(at),
            request => two.ask(at, request),
        };
        println!("{at} {told}");
    }
    Ok(())
}

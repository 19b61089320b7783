//! A limiter over devices in plain memory, with the proved core as a static library: bindings/c/limiter.c in Rust.
//!
//!     limiter VARIANT [EVENT STEP] <LINES
//!
//! A line with TABs is a batch of requests; `writes` says how often the cell was written for them.

use memoir_core::{Answer, Checkpointed, Devices, Fault, Host, HostFault, Refusal, Store, Variant};
use std::{
    convert::Infallible,
    io::{self, BufRead, Write},
};

/// The devices; power is cut just behind the effect of a step of this event, where one is named.
struct Memory {
    cell: [u8; 104],
    register: [u8; 32],
    is_on: bool,
    made: u32,
    cut: Option<u32>,
    writes: u32,
}

impl Memory {
    /// A step with this effect. A platform that is off makes none.
    fn step<T>(&mut self, effect: impl FnOnce(&mut Memory) -> T) -> Result<T, Fault> {
        if !self.is_on {
            return Err(Fault::Off);
        }
        let given = effect(self);
        self.made += 1;
        self.is_on = self.cut != Some(self.made);
        if self.is_on {
            Ok(given)
        } else {
            Err(Fault::Off)
        }
    }

    /// Power is lost and comes back.
    fn power(&mut self) {
        self.register = [0; 32];
        self.is_on = true;
    }
}

impl Devices for Memory {
    fn read_cell(&mut self) -> Result<[u8; 104], Fault> {
        self.step(|it| it.cell)
    }

    fn write_cell(&mut self, bytes: &[u8; 104]) -> Result<(), Fault> {
        self.writes += 1;
        self.step(|it| it.cell = *bytes)
    }

    fn read_register(&mut self) -> Result<[u8; 32], Fault> {
        self.step(|it| it.register)
    }

    fn reset_register(&mut self) -> Result<(), Fault> {
        self.step(|it| it.register = [0; 32])
    }

    fn extend_register(&mut self, value: &[u8; 32]) -> Result<(), Fault> {
        self.step(|it| it.register = extended(&it.register, value))
    }
}

/// The slots. Yours are files, and a write is synced with its name before it answers.
#[derive(Default)]
struct Slots([Vec<u8>; 4]);

impl Store for Slots {
    type Fault = Infallible;

    fn read(&mut self, slot: usize) -> Result<Vec<u8>, Infallible> {
        Ok(self.0[slot].clone())
    }

    fn write(&mut self, slot: usize, bytes: &[u8]) -> Result<(), Infallible> {
        self.0[slot] = bytes.to_vec();
        Ok(())
    }
}

type Came = Result<Answer, HostFault<Infallible>>;

/// A new instance, under the key and the barrier of a replay; yours are secret, and random.
fn made(variant: Variant) -> Result<Host<Memory, Slots>, HostFault<Infallible>> {
    let mut devices = Memory {
        cell: [0; 104],
        register: [0; 32],
        is_on: true,
        made: 0,
        cut: None,
        writes: 0,
    };
    let mut slots = Slots::default();
    let (key, barrier) = (
        std::array::from_fn(|i| i as u8),
        std::array::from_fn(|i| 32 + i as u8),
    );
    Host::provision(
        variant,
        "limiter",
        (&key, &barrier),
        &mut devices,
        &mut slots,
    )?;
    let mut host = Host::open(devices, slots)?;
    host.resume()?;
    host.devices.writes = 0;
    Ok(host)
}

/// One line: a request, several with TABs between them as one batch, or one of the three words.
fn serve(host: &mut Host<Memory, Slots>, line: &[u8], out: &mut impl Write) -> io::Result<()> {
    match line {
        b"power" => {
            host.devices.power();
            writeln!(out, "power")
        }
        b"writes" => writeln!(out, "writes {}", host.devices.writes),
        b"checkpoint" => match host.checkpoint() {
            Ok(Checkpointed::Done) => writeln!(out, "checkpointed"),
            Ok(Checkpointed::NoSegment) => writeln!(out, "no segment"),
            Err(refusal) => refused(refusal, out),
        },
        _ if line.contains(&b'\t') => match host.ask_batch(line) {
            Err(HostFault::Refused(Refusal::Device)) => {
                host.devices.power();
                host.devices.cut = None;
                let came = host.ask_batch(line);
                tell_batch(came, out)
            }
            came => tell_batch(came, out),
        },
        _ => match host.ask(line) {
            Err(HostFault::Refused(Refusal::Device)) => {
                host.devices.power();
                host.devices.cut = None;
                match host.resume() {
                    Ok(None) => Ok(()),
                    Ok(Some(answer)) => tell(Ok(answer), out),
                    Err(fault) => tell(Err(fault), out),
                }
            }
            came => tell(came, out),
        },
    }
}

/// Tells a reply, as a replay does.
fn tell(came: Came, out: &mut impl Write) -> io::Result<()> {
    match came {
        Ok(answer) => {
            let word = if answer.again { "again" } else { "ok" };
            write!(out, "{word} {} ", answer.position)?;
            out.write_all(&answer.output)?;
            out.write_all(b"\n")
        }
        Err(HostFault::Refused(refusal)) => refused(refusal, out),
        Err(HostFault::Store(never)) => match never {},
        Err(HostFault::Already) => unreachable!("the cell was blank"),
    }
}

/// The same of a batch: a line for each request.
fn tell_batch(came: Came, out: &mut impl Write) -> io::Result<()> {
    let Ok(answer) = came else {
        return tell(came, out);
    };
    let outputs: Vec<&[u8]> = answer
        .output
        .split_inclusive(|byte| *byte == b'\n')
        .collect();
    let word = if answer.again { "again" } else { "ok" };
    for (i, output) in outputs.iter().enumerate() {
        write!(
            out,
            "{word} {} ",
            answer.position - (outputs.len() - 1 - i) as u64
        )?;
        out.write_all(output)?;
    }
    Ok(())
}

fn refused(refusal: Refusal, out: &mut impl Write) -> io::Result<()> {
    writeln!(out, "no {}", format!("{refusal:?}").to_lowercase())
}

fn main() -> io::Result<()> {
    let words: Vec<String> = std::env::args().skip(1).collect();
    let variant = if words.first().is_some_and(|word| word == "opt") {
        Variant::Opt
    } else {
        Variant::Basic
    };
    let cut = words
        .get(1)
        .zip(words.get(2))
        .and_then(|(e, s)| Some((e.parse::<usize>().ok()?, s.parse::<u32>().ok()?)));
    let mut host = made(variant).expect("a new instance");
    let mut out = io::BufWriter::new(io::stdout().lock());
    for (number, line) in io::stdin().lock().split(b'\n').enumerate() {
        host.devices.made = 0;
        host.devices.cut = cut.filter(|cut| cut.0 == number + 1).map(|cut| cut.1);
        serve(&mut host, &line?, &mut out)?;
    }
    out.flush()
}

/// SHA-256 of the register and a value.
fn extended(register: &[u8; 32], value: &[u8; 32]) -> [u8; 32] {
    let mut text = [0; 128];
    text[..32].copy_from_slice(register);
    text[32..64].copy_from_slice(value);
    text[64] = 0x80;
    text[126] = 2; // 512 bits
    let mut h = [
        0x6a09e667u32,
        0xbb67ae85,
        0x3c6ef372,
        0xa54ff53a,
        0x510e527f,
        0x9b05688c,
        0x1f83d9ab,
        0x5be0cd19,
    ];
    for block in text.chunks(64) {
        compress(&mut h, block);
    }
    let mut digest = [0; 32];
    for (to, word) in digest.chunks_mut(4).zip(h) {
        to.copy_from_slice(&word.to_be_bytes());
    }
    digest
}

fn compress(h: &mut [u32; 8], block: &[u8]) {
    let mut w = [0u32; 64];
    for (to, from) in w.iter_mut().zip(block.chunks(4)) {
        *to = u32::from_be_bytes([from[0], from[1], from[2], from[3]]);
    }
    for i in 16..64 {
        let a = w[i - 15].rotate_right(7) ^ w[i - 15].rotate_right(18) ^ (w[i - 15] >> 3);
        let b = w[i - 2].rotate_right(17) ^ w[i - 2].rotate_right(19) ^ (w[i - 2] >> 10);
        w[i] = w[i - 16]
            .wrapping_add(a)
            .wrapping_add(w[i - 7])
            .wrapping_add(b);
    }
    let mut s = *h;
    for i in 0..64 {
        let a = s[4].rotate_right(6) ^ s[4].rotate_right(11) ^ s[4].rotate_right(25);
        let t = s[7]
            .wrapping_add(a)
            .wrapping_add((s[4] & s[5]) ^ (!s[4] & s[6]))
            .wrapping_add(K[i])
            .wrapping_add(w[i]);
        let b = s[0].rotate_right(2) ^ s[0].rotate_right(13) ^ s[0].rotate_right(22);
        let u = b.wrapping_add((s[0] & s[1]) ^ (s[0] & s[2]) ^ (s[1] & s[2]));
        s.copy_within(0..7, 1);
        s[4] = s[4].wrapping_add(t);
        s[0] = t.wrapping_add(u);
    }
    for (to, from) in h.iter_mut().zip(s) {
        *to = to.wrapping_add(from);
    }
}

const K: [u32; 64] = [
    0x428a2f98, 0x71374491, 0xb5c0fbcf, 0xe9b5dba5, 0x3956c25b, 0x59f111f1, 0x923f82a4, 0xab1c5ed5,
    0xd807aa98, 0x12835b01, 0x243185be, 0x550c7dc3, 0x72be5d74, 0x80deb1fe, 0x9bdc06a7, 0xc19bf174,
    0xe49b69c1, 0xefbe4786, 0x0fc19dc6, 0x240ca1cc, 0x2de92c6f, 0x4a7484aa, 0x5cb0a9dc, 0x76f988da,
    0x983e5152, 0xa831c66d, 0xb00327c8, 0xbf597fc7, 0xc6e00bf3, 0xd5a79147, 0x06ca6351, 0x14292967,
    0x27b70a85, 0x2e1b2138, 0x4d2c6dfc, 0x53380d13, 0x650a7354, 0x766a0abb, 0x81c2c92e, 0x92722c85,
    0xa2bfe8a1, 0xa81a664b, 0xc24b8b70, 0xc76c51a3, 0xd192e819, 0xd6990624, 0xf40e3585, 0x106aa070,
    0x19a4c116, 0x1e376c08, 0x2748774c, 0x34b0bcb5, 0x391c0cb3, 0x4ed8aa4a, 0x5b9cca4f, 0x682e6ff3,
    0x748f82ee, 0x78a5636f, 0x84c87814, 0x8cc70208, 0x90befffa, 0xa4506ceb, 0xbef9a3f7, 0xc67178f2,
];

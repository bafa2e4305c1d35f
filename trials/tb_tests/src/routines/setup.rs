//! What the rows share: a call of one routine, and what it came to.
use std::alloc::Global;
use std::test::Fail;
use tb_cpu::{Flags, Regs};
use tb_compiled_kept::{HOME_S, LINE, LINES_AT, RESULT, VARS};
use tb_kernal::{Machine, Quiet, Rude, Status, run};
use tb_memmap::Memory;
use tb_runtime16::{BLOCK_AT, Routine, block, entry};
use tb_test_support::keyboard_of;
use tb_words::{digits, next_seed};

/// The address of the caller, which is where a program's lines begin.
pub const CALLER: u16 = LINES_AT;

/// The address where a row's own bytes may lie: a text, a line table.
pub const PROGRAM: u16 = 0x0d00;

/// The byte at each address of data that a call doesn't set.
pub const NOISE: u8 = 0xa5;

// An address of no routine, whose byte the caller raises from 0 to 1 after the call.
const BACK: u16 = 0xc0ff;

// More events than any routine takes here.
const LIMIT: u64 = 100_000;

/// The ROMs with which a row runs: quiet, and rude from a seed.
pub const ROMS: [Option<u16>; 2] = [None, Some(1)];

/// A call of a routine.
#[derive(Clone, Copy)]
pub struct Call<'a> {
    pub routine: Routine,
    pub a: u8,
    pub x: u8,
    pub y: u8,
    /// Words at addresses of data.
    pub words: &'a [(u16, u16)],
    /// Bytes at addresses of data.
    pub bytes: &'a [(u16, u8)],
    /// The bytes from an address on.
    pub loaded: &'a [u8],
    pub at: u16,
    pub keys: &'a [u8],
    pub answers: &'a [u8],
}

/// A call on noise alone.
pub fn plain(routine: Routine) -> Call<'static> {
    Call {
        routine,
        a: NOISE,
        x: NOISE,
        y: NOISE,
        words: &[],
        bytes: &[],
        loaded: &[],
        at: PROGRAM,
        keys: &[],
        answers: &[],
    }
}

/// How a call ended.
#[derive(Clone, Copy, PartialEq, Eq, Debug, Drop)]
pub enum End {
    /// Back at the caller.
    Back,
    /// The program has ended.
    Home,
    /// In CHRIN, for a key.
    Waits,
}

/// What a call came to.
#[derive(Drop)]
pub struct Called {
    pub end: End,
    pub machine: Machine,
}

impl Call<'_> {
    /// Runs the call with a ROM.
    pub fn run(&self, alloc: Global, rom: Option<u16>) -> Result<Called, Fail> {
        let mut machine = self.machine(alloc)?;
        let end = run_to_end(&mut machine, rom)?;
        Ok(Called { end, machine })
    }

    // The machine before the call: registers and flags are noise, but D is clear.
    fn machine(&self, alloc: Global) -> Result<Machine, Fail> {
        let keyboard = keyboard_of(alloc, self.keys, self.answers)?;
        let regs = Regs {
            a: self.a,
            x: self.x,
            y: self.y,
            ..noisy_regs(CALLER, 0xf0, false)
        };
        Ok(
            Machine::enter(alloc, self.memory(alloc)?, regs, keyboard)
                .ok()
                .ok_or("no machine")?,
        )
    }

    fn memory(&self, alloc: Global) -> Result<Memory, Fail> {
        let mut memory = memory_with_block(alloc, 0xf0)?;
        let [low, high] = entry(self.routine).to_le_bytes();
        // JSR the routine, INC BACK, RTS
        memory.load(CALLER, &[0x20, low, high, 0xee, 0xff, 0xc0, 0x60])?;
        memory.write(BACK, 0)?;
        memory.write(HOME_S, 0xf0)?;
        for &(place, word) in self.words {
            memory.load(place, &word.to_le_bytes())?;
        }
        for &(place, byte) in self.bytes {
            memory.write(place, byte)?;
        }
        memory.load(self.at, self.loaded)?;
        Ok(memory)
    }
}

// Runs a call to its end.
fn run_to_end(machine: &mut Machine, rom: Option<u16>) -> Result<End, Fail> {
    match run_beside(machine, rom)? {
        Status::Returned if machine.memory().read(BACK)? == 1 => Ok(End::Back),
        Status::Returned => Ok(End::Home),
        Status::Waits => Ok(End::Waits),
        _ => Err("neither returned nor waiting".into()),
    }
}

/// Runs a machine until it has returned, gone wrong or waits.
pub fn run_beside(machine: &mut Machine, rom: Option<u16>) -> Result<Status, Fail> {
    Ok(match rom {
        None => run(machine, &mut Quiet, LIMIT)?,
        Some(seed) => run(machine, &mut Rude::new(seed), LIMIT)?,
    })
}

/// A memory with the block, noise from $C000 on, and a return to $A100 above S.
pub fn memory_with_block(alloc: Global, s: u8) -> Result<Memory, Fail> {
    let mut memory = Memory::new(alloc)?;
    memory.load(BLOCK_AT, block())?;
    memory.load(VARS, &[NOISE; 256])?;
    memory.load(u16::from_le_bytes([s, 1]).saturating_add(1), &[0xff, 0xa0])?;
    Ok(memory)
}

/// Registers of which only PC, S and D are set.
pub fn noisy_regs(pc: u16, s: u8, d: bool) -> Regs {
    let flags = Flags {
        n: true,
        v: true,
        d,
        i: true,
        z: true,
        c: true,
    };
    Regs {
        a: NOISE,
        x: NOISE,
        y: NOISE,
        s,
        pc,
        flags,
    }
}

impl Called {
    /// The byte at an address.
    pub fn byte(&self, place: u16) -> Option<u8> {
        self.machine.memory().read(place).ok()
    }

    /// The word at an address.
    pub fn word(&self, place: u16) -> Option<u16> {
        let low = self.byte(place)?;
        let high = self.byte(place.saturating_add(1))?;
        Some(u16::from_le_bytes([low, high]))
    }

    /// Whether the call came back with this word as its result and sent nothing.
    pub fn gives(&self, word: u16) -> bool {
        self.sends(b"") && self.word(RESULT) == Some(word)
    }

    /// Whether the call came back and sent this.
    pub fn sends(&self, text: &[u8]) -> bool {
        self.end == End::Back && self.machine.sent() == text && self.keeps()
    }

    /// Whether the call sent this and then a fault's text, and the program has ended.
    pub fn faults(&self, before: &[u8], fault: u8) -> bool {
        self.end == End::Home && self.has_sent_fault(before, fault) && self.keeps()
    }

    fn has_sent_fault(&self, before: &[u8], fault: u8) -> bool {
        match (self.word(LINE), self.machine.sent().strip_prefix(before)) {
            (Some(line), Some(text)) => is_fault(text, fault, line),
            _ => false,
        }
    }

    /// Whether the addresses that no routine changes are as they were: variables, slots, the held word and the stack
    /// pointer's.
    pub fn keeps(&self) -> bool {
        for place in (0xc000..0xc034u16).chain(0xc040..0xc062) {
            if self.byte(place) != Some(NOISE) {
                return false;
            }
        }
        self.byte(HOME_S) == Some(0xf0)
    }
}

// Whether a text is that of a fault at a line.
fn is_fault(text: &[u8], fault: u8, line: u16) -> bool {
    let digits = digits(line.cast_signed());
    let number = [b'0'.wrapping_add(fault)];
    let mut rest = text;
    for part in [b"\r!".as_slice(), &number, b" AT ", &digits, b"\r"] {
        match rest.strip_prefix(part) {
            Some(after) => rest = after,
            None => return false,
        }
    }
    rest.is_empty()
}

/// Words at the edges.
pub const EDGES: [u16; 16] = [
    0, 1, 2, 3, 9, 10, 255, 256, 257, 10000, 32767, 32768, 32769, 55536, 65280, 65535,
];

/// Two words and the ROM with which they are tried.
#[derive(Clone, Copy, Drop)]
pub struct Pair {
    pub rom: Option<u16>,
    pub left: u16,
    pub right: u16,
}

/// All pairs of edges, and 1,000 pairs from a seed, each with a quiet and a rude ROM.
pub fn pairs(alloc: Global) -> Result<Vec<Pair>, Fail> {
    let mut pairs = Vec::new(alloc);
    for rom in ROMS {
        for left in EDGES {
            for right in EDGES {
                pairs.push(Pair { rom, left, right })?;
            }
        }
    }
    let mut seed = 1;
    for _ in 0..1000 {
        let left = next_seed(seed);
        seed = next_seed(left);
        // the low bits of seeds alternate
        let right = seed.swap_bytes();
        for rom in [None, Some(seed)] {
            pairs.push(Pair { rom, left, right })?;
        }
    }
    Ok(pairs)
}

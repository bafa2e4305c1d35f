//! Rows of a machine that moves by single events, and of the events that outsides give it.
use crate::machine::Bench;
use crate::machine::setting::{PROGRAM_AT, Setting, first_regs};
use crate::machine::writing::{
    put_flags, put_indexes, put_quoted, put_read, put_registers, put_status,
};
use crate::notation::{number, word};
use crate::page::Page;
use arrayvec::ArrayVec;
use tb_cpu::Flags;
use tb_kernal::{Clobber, EnterError, Event, Machine, Outside, Recorded, Rude, Writes};
use tb_memmap::Memory;

/// Appends the answer of a row.
pub fn put_answer(page: &mut Page, bench: &mut Bench, name: &str, rest: &str) {
    let words = if is_number(name) { "" } else { rest };
    bench.setting.read(page, first_regs(), words);
    if name == "machine" {
        return put_entered(page, bench);
    }
    match &mut bench.machine {
        Some(machine) => put_moved(page, machine, &bench.setting, name, rest),
        None => page.fail(),
    }
}

// Whether a number follows the name.
fn is_number(name: &str) -> bool {
    name == "reserve" || name == "rude"
}

// Enters the machine that the next rows move.
fn put_entered(page: &mut Page, bench: &mut Bench) {
    match enter(page, &mut bench.setting) {
        Some(Ok(machine)) => {
            put_registers(page, &machine.regs());
            bench.machine = Some(machine);
        }
        Some(Err(error)) => put_refused(page, &error),
        None => page.fail(),
    }
}

/// A machine of a setting, with a return to `$A100` on the stack as well.
pub fn enter(page: &mut Page, setting: &mut Setting) -> Option<Result<Machine, EnterError>> {
    let memory = Memory::new(page.alloc());
    let mut memory = page.held(memory)?;
    let loaded = memory.load(0x01f1, &[0xff, 0xa0]);
    page.held(loaded);
    setting.put(page, &mut memory);
    let keyboard = setting.keyboard(page.alloc());
    Some(Machine::enter(page.alloc(), memory, setting.regs, keyboard))
}

fn put_refused(page: &mut Page, error: &EnterError) {
    let kind = error.kind;
    page.put_part(&kind);
    put_read(page, error.memory.read(PROGRAM_AT));
    put_quoted(page, error.keyboard.text.as_slice());
}

fn put_moved(page: &mut Page, machine: &mut Machine, setting: &Setting, name: &str, rest: &str) {
    match name {
        "go" => put_event(page, machine, go()),
        "interrupt" => put_interrupted(page, machine, setting),
        "reserve" => put_reserved(page, machine, rest),
        "look" => setting.put_asked(page, machine.memory()),
        "recorded" => put_recorded(page, machine, setting),
        _ => {
            let mut rude = Rude::new(word(page, rest));
            put_three(page, machine, &mut rude);
        }
    }
}

/// A Go whose clobber is all zero and writes nothing.
pub fn go() -> Event {
    Event::Go(Clobber {
        a: 0,
        x: 0,
        y: 0,
        n: false,
        v: false,
        i: false,
        z: false,
        c: false,
        writes: ArrayVec::new(),
    })
}

// An Interrupt that writes one byte.
fn interrupt(address: u16, value: u8) -> Event {
    let mut writes: Writes = ArrayVec::new();
    writes.push((address, value));
    Event::Interrupt(writes)
}

fn put_interrupted(page: &mut Page, machine: &mut Machine, setting: &Setting) {
    match setting.bytes.first() {
        Some(&(address, value)) => put_event(page, machine, interrupt(address, value)),
        None => page.fail(),
    }
}

// What an event comes to, the registers, what was sent so far, and how much room the event took.
fn put_event(page: &mut Page, machine: &mut Machine, event: Event) {
    let room = machine.room();
    match machine.event(event) {
        Ok(status) => put_status(page, status),
        Err(error) => page.put_part(&error),
    }
    put_registers(page, &machine.regs());
    put_quoted(page, machine.sent());
    let taken = room.saturating_sub(machine.room());
    page.put(" ");
    page.put(taken);
}

// Makes room, and says whether there is room.
fn put_reserved(page: &mut Page, machine: &mut Machine, rest: &str) {
    let count = usize::try_from(number(page, rest)).unwrap_or(0);
    let reserved = machine.reserve(count);
    let room = if machine.room() > 0 {
        "room"
    } else {
        "no room"
    };
    page.put_part(&reserved);
    page.put(" ");
    page.put(room);
}

// Three events that an outside gives one after the other.
fn put_three<O: Outside>(page: &mut Page, machine: &Machine, outside: &mut O) {
    for _ in 0..3 {
        put_given(page, &outside.next(machine));
    }
}

// What an outside gives that replays the Interrupts of a row's words, each of one byte.
fn put_recorded(page: &mut Page, machine: &Machine, setting: &Setting) {
    let mut events = Vec::new(page.alloc());
    for &(address, value) in &setting.bytes {
        let recorded = events.push(interrupt(address, value));
        page.held(recorded);
    }
    put_three(page, machine, &mut Recorded::new(events));
}

fn put_given(page: &mut Page, event: &Event) {
    match event {
        Event::Go(clobber) => {
            page.put("\n  Go");
            put_clobber(page, clobber);
        }
        Event::Interrupt(writes) => {
            page.put("\n  Interrupt");
            put_writes(page, writes);
        }
    }
}

fn put_clobber(page: &mut Page, clobber: &Clobber) {
    put_indexes(page, clobber.a, clobber.x, clobber.y);
    let flags = Flags {
        n: clobber.n,
        v: clobber.v,
        d: false,
        i: clobber.i,
        z: clobber.z,
        c: clobber.c,
    };
    put_flags(page, flags);
    put_writes(page, &clobber.writes);
}

fn put_writes(page: &mut Page, writes: &Writes) {
    for &(address, value) in writes.as_slice() {
        page.put(" ");
        page.put_low_word(address);
        page.put(": ");
        page.put_low_byte(value);
    }
}

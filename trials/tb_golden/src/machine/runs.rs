//! Rows of machines that run, and of events that are undone.
use crate::machine::Bench;
use crate::machine::events::enter;
use crate::machine::fidgety::Fidgety;
use crate::machine::setting::{Setting, first_regs};
use crate::machine::writing::{put_quoted, put_status};
use crate::notation::{cut, word};
use crate::page::Page;
use tb_kernal::{Event, Machine, Outside, Quiet, Recorded, Rude, run};
use tb_words::next_seed;

/// Appends the answer of a row.
pub fn put_answer(page: &mut Page, bench: &mut Bench, name: &str, rest: &str) {
    let (first, rest) = cut(rest);
    let number = word(page, first);
    let setting = &mut bench.setting;
    match name {
        "quiet" => put_ending(page, setting, &mut Quiet, number, rest),
        "recorded" => {
            let mut recorded = Recorded::new(Vec::new(page.alloc()));
            put_ending(page, setting, &mut recorded, number, rest);
        }
        "fidgety" => {
            let mut fidgety = Fidgety { interrupts: false };
            put_ending(page, setting, &mut fidgety, number, rest);
        }
        "rude" => put_rude(page, setting, number, rest),
        "undo" => put_undone(page, setting, number, rest),
        _ => put_random(page, setting, number),
    }
}

// The machine of a row's words, unless it is refused.
fn machine_of(page: &mut Page, setting: &mut Setting, words: &str) -> Option<Machine> {
    setting.read(page, first_regs(), words);
    let entered = enter(page, setting)?;
    page.held(entered)
}

// How a run of at most `limit` events ends.
fn put_ending<O: Outside>(
    page: &mut Page,
    setting: &mut Setting,
    outside: &mut O,
    limit: u16,
    words: &str,
) {
    if let Some(mut machine) = machine_of(page, setting, words) {
        put_run(page, &mut machine, outside, limit);
    }
}

fn put_run<O: Outside>(page: &mut Page, machine: &mut Machine, outside: &mut O, limit: u16) {
    let ran = run(machine, outside, u64::from(limit));
    if let Some(status) = page.held(ran) {
        put_status(page, status);
    }
    let pc = machine.regs().pc;
    page.put(" ");
    page.put_low_word(pc);
    put_quoted(page, machine.sent());
}

// How a run ends with each of the rude ROMs of the seeds from 1 on. What a seed has in common with the one before is
// written once.
fn put_rude(page: &mut Page, setting: &mut Setting, last: u16, rest: &str) {
    let (limit, words) = cut(rest);
    let limit = word(page, limit);
    let mut common = Page::new(page.alloc());
    for seed in 1..=last {
        let mut ending = Page::new(page.alloc());
        put_ending(&mut ending, setting, &mut Rude::new(seed), limit, words);
        if ending.has_failed() {
            page.fail();
        }
        if ending.text() != common.text() {
            page.put(ending.text());
            common = ending;
        }
    }
}

// How many programs of random bytes run as they should, with a quiet ROM and with a rude one.
fn put_random(page: &mut Page, setting: &mut Setting, count: u16) {
    let mut seed = 1;
    let mut held = 0u16;
    for _ in 0..count {
        let program = random_program(&mut seed);
        if is_as_answered(page, setting, &program, &mut Quiet)
            && is_as_answered(page, setting, &program, &mut Rude::new(seed))
        {
            held = held.saturating_add(1);
        }
    }
    page.put(" ");
    page.put(held);
}

fn random_program(seed: &mut u16) -> [u8; 64] {
    let mut program = [0; 64];
    for byte in &mut program {
        *seed = next_seed(*seed);
        *byte = (*seed >> 8) as u8;
    }
    program
}

// Whether the machine's status after a run of at most 10,000 events is what the run answered.
fn is_as_answered<O: Outside>(
    page: &mut Page,
    setting: &mut Setting,
    program: &[u8],
    outside: &mut O,
) -> bool {
    setting.read(page, first_regs(), "");
    setting.put_next(page, program);
    match enter(page, setting) {
        Some(Ok(machine)) => ends_as_answered(machine, outside),
        _ => false,
    }
}

fn ends_as_answered<O: Outside>(machine: Machine, outside: &mut O) -> bool {
    let mut machine = machine;
    match run(&mut machine, outside, 10_000) {
        Ok(status) => machine.status() == status,
        Err(_) => false,
    }
}

// Whether undoing the event that Rude gives for a seed restores a machine and its room.
fn put_undone(page: &mut Page, setting: &mut Setting, seed: u16, words: &str) {
    if let Some(mut machine) = machine_of(page, setting, words) {
        let reserved = machine.reserve(1);
        page.held(reserved);
        let is_undone = is_undone(page, &mut machine, seed);
        page.put(" ");
        page.put(is_undone);
    }
}

fn is_undone(page: &mut Page, machine: &mut Machine, seed: u16) -> bool {
    let before = everything(page, machine);
    let event = Rude::new(seed).next(machine);
    let has_happened = happen_and_undo(machine, event);
    let after = everything(page, machine);
    has_happened && before.text() == after.text()
}

// All that an undone event is to give back.
fn everything(page: &mut Page, machine: &Machine) -> Page {
    let mut shown = Page::new(page.alloc());
    put_everything(&mut shown, machine);
    if shown.has_failed() {
        page.fail();
    }
    shown
}

fn put_everything(shown: &mut Page, machine: &Machine) {
    let (text, answers) = machine.keys_left();
    let (regs, status, sent, room) = (
        machine.regs(),
        machine.status(),
        machine.sent(),
        machine.room(),
    );
    shown.put_debug(&regs);
    shown.put_part(&status);
    shown.put_part(&sent);
    shown.put_part(&text);
    shown.put_part(&answers);
    shown.put(" ");
    shown.put(room);
    for address in 0..=0xffff {
        let byte = machine.memory().read(address).unwrap_or(0);
        shown.put_ascii(&[byte]);
    }
}

// Lets an event happen, and undoes it.
fn happen_and_undo(machine: &mut Machine, event: Event) -> bool {
    let note = machine.note(&event);
    let has_happened = machine.event(event).is_ok();
    machine.undo(&note);
    has_happened
}

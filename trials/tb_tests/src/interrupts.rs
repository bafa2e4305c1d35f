//! One interrupt, before each event of a run in turn, given by `Recorded`.
use crate::machines::{LIMIT, clean};
use crate::outsides::everywhere;
use crate::rows::{Row, short_rows};
use arrayvec::ArrayVec;
use std::alloc::Global;
use std::process::Abort;
use std::test::Fail;
use tb_compiled::Compiled;
use tb_kernal::{Event, Machine, Quiet, Recorded, Status, run};

/// How many events before the interrupt are listed, at most: a longer list takes long to make for each run.
const MOST_LISTED: usize = 1000;

/// An address that the ROM may not write.
const OWNED: u16 = 0xc000;

/// An address that the ROM may write, and these programs do not.
const ROM_WRITABLE: u16 = 0x0200;

/// What the interrupt writes.
const WRITTEN: u8 = 0xff;

// Appends the stack pointer before each event that a program takes with a quiet ROM.
fn push_stack_pointers(machine: &mut Machine, pointers: &mut Vec<u8>) -> Result<(), Fail> {
    for _ in 0..LIMIT {
        if machine.status() != Status::Running {
            break;
        }
        pointers.push(machine.regs().s)?;
        run(machine, &mut Quiet, 1)?;
    }
    Ok(())
}

// Appends this many unlawful events, in place of which Quiet's are taken, and then the interrupt.
fn push_events(events: &mut Vec<Event>, before: usize, s: u8) -> Result<(), Fail> {
    for _ in 0..before {
        events.push(Event::Interrupt(ArrayVec::from([(OWNED, WRITTEN); 8])))?;
    }
    events.push(Event::Interrupt(everywhere(s, WRITTEN)))?;
    Ok(())
}

// The outside that gives this many of Quiet's events, and then the interrupt.
fn interrupting(alloc: Global, before: usize, s: u8) -> Result<Recorded, Fail> {
    let mut events = Vec::new(alloc);
    push_events(&mut events, before, s)?;
    Ok(Recorded::new(events))
}

// Runs a machine with the interrupt before an event at which the stack pointer is `s`. Far from the interrupt the run
// is Quiet's own, which is faster.
fn run_past(alloc: Global, machine: &mut Machine, event: usize, s: u8) -> Result<(), Fail> {
    let listed = event.min(MOST_LISTED);
    run(machine, &mut Quiet, (event - listed) as u64)?;
    let mut recorded = interrupting(alloc, listed, s)?;
    run(machine, &mut recorded, listed as u64 + 1)?;
    run(machine, &mut Quiet, LIMIT)?;
    Ok(())
}

impl Row<'_> {
    // Whether it shows a fault, or something is typed or waited for.
    fn faults_or_asks(&self) -> bool {
        self.shown.as_bytes().contains(&b'!') || !self.keys.is_empty() || self.status == 6
    }

    // The stack pointer before each event that the program takes with a quiet ROM.
    fn stack_pointers(&self, alloc: Global, program: &Compiled) -> Result<Vec<u8>, Fail> {
        let mut machine = self.machine(alloc, program, &clean())?;
        let mut pointers = Vec::new(alloc);
        push_stack_pointers(&mut machine, &mut pointers)?;
        Ok(pointers)
    }

    // Whether the machine was interrupted, and ends and sends as it should, if the interrupt comes before this event.
    fn is_done_past(
        &self,
        alloc: Global,
        program: &Compiled,
        event: usize,
        s: u8,
    ) -> Result<bool, Fail> {
        let mut machine = self.machine(alloc, program, &clean())?;
        run_past(alloc, &mut machine, event, s)?;
        let is_interrupted = machine.memory().read(ROM_WRITABLE) == Ok(WRITTEN);
        Ok(is_interrupted && self.is_done_by(alloc, &machine)?)
    }

    // The first event of a program before which the interrupt changes something, of every fourth from this one on.
    fn first_changed(
        &self,
        alloc: Global,
        program: &Compiled,
        from: usize,
    ) -> Result<Option<usize>, Fail> {
        let pointers = self.stack_pointers(alloc, program)?;
        for (event, s) in pointers.iter().enumerate() {
            if event % 4 == from && !self.is_done_past(alloc, program, event, *s)? {
                return Ok(Some(event));
            }
        }
        Ok(None)
    }

    fn first_change(&self, alloc: Global, from: usize) -> Result<Option<usize>, Fail> {
        let program = self.compiled(alloc)?;
        self.first_changed(alloc, &program, from)
    }
}

// Each row on faults and on INPUT. Only every fourth event, since all of them take as long as a test may.
fn try_each_fourth<R: Abort + AllocGlobal>(rt: &R, from: usize) -> Result<(), Fail> {
    for row in short_rows() {
        if !row.faults_or_asks() {
            continue;
        }
        let change = row.first_change(rt.alloc(), from)?;
        assert!(rt;
            change.is_none(),
            "{:?}, interrupt before event {change:?}",
            row.source
        );
    }
    Ok(())
}

#[test]
fn an_interrupt_before_event_0_4_8_changes_nothing(rt: HostRuntime) -> Result<(), Fail> {
    try_each_fourth(&rt, 0)
}

#[test]
fn an_interrupt_before_event_1_5_9_changes_nothing(rt: HostRuntime) -> Result<(), Fail> {
    try_each_fourth(&rt, 1)
}

#[test]
fn an_interrupt_before_event_2_6_10_changes_nothing(rt: HostRuntime) -> Result<(), Fail> {
    try_each_fourth(&rt, 2)
}

#[test]
fn an_interrupt_before_event_3_7_11_changes_nothing(rt: HostRuntime) -> Result<(), Fail> {
    try_each_fourth(&rt, 3)
}

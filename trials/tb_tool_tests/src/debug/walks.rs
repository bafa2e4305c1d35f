//! Walks back and forth, at random, compared with what the interpreter says of each time.
use crate::debug::programs::{ASKS, DRAWS, FAULTS, FOREVER, LOOP, NESTS, RUNS_PAST, TYPED};
use std::alloc::{AllocError, Global};
use std::test::Fail;
use tb_codegen::{Options, compile};
use tb_compiled::Compiled;
use tb_debug::{Command, Debugger, Reached, Rom};
use tb_engines::start_machine;
use tb_kernal::Machine;
use tb_basic_meaning::{Place, RunEnd, SourceRun, run_source};
use tb_parser::{Letter, Program, parse};
use tb_test_support::keyboard_of;
use tb_kernal::Unwatched;

/// How many lines of a run are looked at.
const MOST_TIME: u64 = 150;

/// How many walks there are of each program.
const WALKS: usize = 1_430;

/// How many commands a walk has.
const MOVES: usize = 12;

/// The seed of RND.
const SEED: u16 = 77;

/// What the interpreter says of each time: the beginnings of lines, and the end if there is one.
#[derive(Drop)]
struct Outlook {
    runs: Vec<SourceRun>,
    ends: bool,
}

// The interpreter's run of this many lines, or one more if it has run past the last line.
fn run_of(alloc: Global, program: &Program, time: u64) -> Result<SourceRun, AllocError> {
    let run = run_source(alloc, program, SEED, TYPED, &[], time)?;
    let past = u64::from(run.place == Place::Past);
    run_source(alloc, program, SEED, TYPED, &[], time.saturating_add(past))
}

// Appends the run of each time, up to an end. Answers whether there is one.
fn push_runs(
    alloc: Global,
    program: &Program,
    runs: &mut Vec<SourceRun>,
) -> Result<bool, AllocError> {
    for time in 0..=MOST_TIME {
        let run = run_of(alloc, program, time)?;
        let ends = run.end != RunEnd::GoesOn;
        runs.push(run)?;
        if ends {
            return Ok(true);
        }
    }
    Ok(false)
}

fn course(alloc: Global, source: &[u8]) -> Result<Outlook, Fail> {
    let program = parse(alloc, source)?;
    let mut runs = Vec::new(alloc);
    let ends = push_runs(alloc, &program, &mut runs)?;
    Ok(Outlook { runs, ends })
}

/// Stops of a walk: a line with a breakpoint, and a watched variable.
#[derive(Clone, Copy, Drop)]
struct Wanted {
    line: u16,
    index: usize,
}

impl Outlook {
    fn last(&self) -> usize {
        self.runs.len().saturating_sub(1)
    }

    // Whether there is a breakpoint at a time.
    fn breaks(&self, time: usize, wanted: Wanted) -> bool {
        match self.runs.get(time) {
            Some(run) => {
                (time < self.last() || !self.ends) && run.place == Place::At(wanted.line)
            }
            None => false,
        }
    }

    // Whether the line of a time gives the watched variable another value.
    fn changes(&self, time: usize, wanted: Wanted) -> bool {
        time < self.last()
            && self.watched(time, wanted) != self.watched(time.saturating_add(1), wanted)
    }

    // The watched variable's value at a time.
    fn watched(&self, time: usize, wanted: Wanted) -> Option<u16> {
        match self.runs.get(time) {
            Some(run) => run.variables.get(wanted.index).copied(),
            None => None,
        }
    }

    // The time at which `c` stops; none if it runs on to the limit.
    fn on_from(&self, time: usize, wanted: Wanted) -> Option<usize> {
        for next in time.saturating_add(1)..self.runs.len() {
            if self.breaks(next, wanted) || self.changes(next.saturating_sub(1), wanted) {
                return Some(next);
            }
        }
        if self.ends { Some(self.last()) } else { None }
    }

    // The time at which `rc` stops.
    fn back_from(&self, time: usize, wanted: Wanted) -> usize {
        for before in (0..time).rev() {
            if self.breaks(before, wanted) || self.changes(before, wanted) {
                return before;
            }
        }
        0
    }

    // Whether the debugger shows what the interpreter says of a time.
    fn agrees(&self, debugger: &Debugger<'_>, program: &Compiled, time: usize) -> bool {
        let is_end = self.ends && time == self.last();
        match self.runs.get(time) {
            Some(run) => {
                stands(debugger, program, run.place, is_end)
                    && debugger.begun() == time as u64
                    && shows(debugger, run, is_end)
            }
            None => false,
        }
    }
}

// Whether the debugger is at a place, or at the end.
fn stands(debugger: &Debugger<'_>, program: &Compiled, place: Place, is_end: bool) -> bool {
    let is_line = debugger.standing() == Reached::Line;
    let line = program.line_at(debugger.machine().regs().pc);
    let is_place = match place {
        Place::At(number) => line == Some(number),
        Place::Past => false,
    };
    if is_end {
        !is_line
    } else {
        is_line && is_place
    }
}

// Whether the debugger's machine has sent what a run sent, and has its variables.
fn shows(debugger: &Debugger<'_>, run: &SourceRun, is_end: bool) -> bool {
    debugger.machine().sent() == run.sent.as_slice()
        && (is_end || debugger.variables().map(|value| value.cast_unsigned()) == run.variables)
}

/// Numbers that look random.
#[derive(Drop)]
struct Dice {
    state: u32,
}

impl Dice {
    fn throw(&mut self, most: usize) -> usize {
        self.state = self
            .state
            .wrapping_mul(1_664_525)
            .wrapping_add(1_013_904_223);
        (self.state >> 8) as usize % most.max(1)
    }
}

// A command, and the time to which it leads.
fn command(
    dice: &mut Dice,
    course: &Outlook,
    time: usize,
    wanted: Wanted,
) -> (Command<'static>, usize) {
    let last = course.last();
    let lines = dice.throw(5);
    match dice.throw(7) {
        0 => {
            let lines = lines.min(last.saturating_sub(time));
            (Command::Next(lines as u64), time.saturating_add(lines))
        }
        1 => (Command::Previous(lines as u64), time.saturating_sub(lines)),
        2 => {
            let to = dice.throw(last.saturating_add(1));
            (Command::ToTime(to as u64), to)
        }
        3 | 4 => match course.on_from(time, wanted) {
            Some(to) => (Command::Continue, to),
            None => (Command::Next(0), time),
        },
        _ => (Command::ReverseContinue, course.back_from(time, wanted)),
    }
}

fn machine_of(alloc: Global, program: &Compiled) -> Result<Machine, Fail> {
    let keyboard = keyboard_of(alloc, TYPED, b"")?;
    let file = tb_prg::read(program.prg())?;
    Ok(
        start_machine(alloc, file, keyboard)
            .ok()
            .ok_or("no machine")?,
    )
}

// The ROM of a walk.
fn rom(dice: &mut Dice) -> Rom {
    if dice.throw(2) == 0 {
        Rom::Quiet
    } else {
        Rom::Rude(u16::try_from(dice.throw(9)).unwrap_or(0))
    }
}

// The stops of a walk.
fn stops(dice: &mut Dice, program: &Compiled) -> Wanted {
    let starts = program.starts();
    let line = match starts.get(dice.throw(starts.len())) {
        Some(start) => start.number,
        None => 0,
    };
    Wanted {
        line,
        index: dice.throw(26),
    }
}

fn set_stops(alloc: Global, debugger: &mut Debugger<'_>, wanted: Wanted) -> Result<(), Fail> {
    let place = u8::try_from(wanted.index).unwrap_or(0);
    let letter = Letter::read(b'A'.wrapping_add(place)).ok_or("no letter")?;
    debugger.respond(alloc, Command::Breakpoint(wanted.line), 0, &mut Unwatched)?;
    debugger.respond(alloc, Command::Watch(letter), 0, &mut Unwatched)?;
    Ok(())
}

// After how many commands, each followed by a comparison, the debugger agrees with the interpreter.
fn walk_on(
    alloc: Global,
    debugger: &mut Debugger<'_>,
    program: &Compiled,
    course: &Outlook,
    dice: &mut Dice,
    wanted: Wanted,
) -> Result<usize, Fail> {
    let mut time = 0;
    for step in 0..MOVES {
        let (command, to) = command(dice, course, time, wanted);
        debugger.respond(alloc, command, 100_000, &mut Unwatched)?;
        time = to;
        if !course.agrees(debugger, program, time) {
            return Ok(step);
        }
    }
    Ok(MOVES)
}

// A walk with a ROM and with stops that the dice choose.
fn walk(
    alloc: Global,
    program: &Compiled,
    course: &Outlook,
    dice: &mut Dice,
) -> Result<usize, Fail> {
    let machine = machine_of(alloc, program)?;
    let mut debugger = Debugger::new(alloc, program, machine, rom(dice))
        .ok()
        .ok_or("no debugger")?;
    let wanted = stops(dice, program);
    set_stops(alloc, &mut debugger, wanted)?;
    walk_on(alloc, &mut debugger, program, course, dice, wanted)
}

// The first walk of a program that strays from what the interpreter says.
fn first_strayed(alloc: Global, source: &[u8], index: u32) -> Result<Option<usize>, Fail> {
    let course = course(alloc, source)?;
    let program = compile(alloc, source, Options { seed: SEED })?;
    let mut dice = Dice { state: index };
    for number in 0..WALKS {
        if walk(alloc, &program, &course, &mut dice)? != MOVES {
            return Ok(Some(number));
        }
    }
    Ok(None)
}

#[test]
fn walks_in_a_loop(rt: HostRuntime) -> Result<(), Fail> {
    assert_eq!(rt; first_strayed(rt.alloc(), LOOP, 0)?, None);
    Ok(())
}

#[test]
fn walks_where_it_draws(rt: HostRuntime) -> Result<(), Fail> {
    assert_eq!(rt; first_strayed(rt.alloc(), DRAWS, 1)?, None);
    Ok(())
}

#[test]
fn walks_through_nested_calls(rt: HostRuntime) -> Result<(), Fail> {
    assert_eq!(rt; first_strayed(rt.alloc(), NESTS, 2)?, None);
    Ok(())
}

#[test]
fn walks_where_it_asks(rt: HostRuntime) -> Result<(), Fail> {
    assert_eq!(rt; first_strayed(rt.alloc(), ASKS, 3)?, None);
    Ok(())
}

#[test]
fn walks_up_to_a_fault(rt: HostRuntime) -> Result<(), Fail> {
    assert_eq!(rt; first_strayed(rt.alloc(), FAULTS, 4)?, None);
    Ok(())
}

#[test]
fn walks_past_the_last_line(rt: HostRuntime) -> Result<(), Fail> {
    assert_eq!(rt; first_strayed(rt.alloc(), RUNS_PAST, 5)?, None);
    Ok(())
}

#[test]
fn walks_without_an_end(rt: HostRuntime) -> Result<(), Fail> {
    assert_eq!(rt; first_strayed(rt.alloc(), FOREVER, 6)?, None);
    Ok(())
}

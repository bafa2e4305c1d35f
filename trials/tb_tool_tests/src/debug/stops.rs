//! Stops that are replaced as a whole, why a way stops, and output that is told once.
use crate::debug::programs::{LOOP, TYPED};
use std::alloc::Global;
use std::test::Fail;
use tb_codegen::{Options, compile};
use tb_compiled::Compiled;
use tb_debug::{Cause, Debugger, Rom};
use tb_engines::start_machine;
use tb_parser::Letter;
use tb_test_support::keyboard_of;
use tb_kernal::Unwatched;

/// The most events of a way.
const LIMIT: u64 = 100_000;

fn program_of(alloc: Global, source: &[u8]) -> Result<Compiled, Fail> {
    Ok(compile(alloc, source, Options { seed: 1 })?)
}

fn debugger_of<'a>(alloc: Global, program: &'a Compiled) -> Result<Debugger<'a>, Fail> {
    let keyboard = keyboard_of(alloc, TYPED, b"")?;
    let file = tb_prg::read(program.prg())?;
    let machine = start_machine(alloc, file, keyboard)
        .ok()
        .ok_or("no machine")?;
    Ok(Debugger::new(alloc, program, machine, Rom::Quiet)?)
}

// The line at which the next way ends, and why.
fn next_stop(
    alloc: Global,
    debugger: &mut Debugger<'_>,
) -> Result<(Option<u16>, Option<Cause>), Fail> {
    debugger.continue_(alloc, LIMIT, &mut Unwatched)?;
    Ok((debugger.line_here(), debugger.cause()))
}

#[test]
fn breakpoints_are_replaced(rt: HostRuntime) -> Result<(), Fail> {
    let alloc = rt.alloc();
    let program = program_of(alloc, LOOP)?;
    let mut debugger = debugger_of(alloc, &program)?;
    assert_eq!(rt; debugger.cause(), None);
    debugger.set_breakpoints(alloc, &[40, 20, 20])?;
    for line in [20, 40, 20, 40] {
        assert_eq!(rt;
            next_stop(alloc, &mut debugger)?,
            (Some(line), Some(Cause::Breakpoint(line)))
        );
    }
    debugger.set_breakpoints(alloc, &[50])?;
    assert_eq!(rt;
        next_stop(alloc, &mut debugger)?,
        (Some(50), Some(Cause::Breakpoint(50)))
    );
    debugger.set_breakpoints(alloc, &[])?;
    assert_eq!(rt; debugger.cause(), None);
    Ok(())
}

#[test]
fn the_first_variable_that_changed_is_told(rt: HostRuntime) -> Result<(), Fail> {
    let alloc = rt.alloc();
    let program = program_of(alloc, LOOP)?;
    let mut debugger = debugger_of(alloc, &program)?;
    let a = Letter::read(b'A').ok_or("no letter")?;
    let b = Letter::read(b'B').ok_or("no letter")?;
    debugger.set_watches(alloc, &[b, a])?;
    for line in [20, 40] {
        assert_eq!(rt;
            next_stop(alloc, &mut debugger)?,
            (Some(line), Some(Cause::Watch(a)))
        );
    }
    debugger.set_breakpoints(alloc, &[40])?;
    assert_eq!(rt; debugger.cause(), Some(Cause::Breakpoint(40)));
    debugger.set_watches(alloc, &[b])?;
    debugger.set_breakpoints(alloc, &[])?;
    assert_eq!(rt; debugger.cause(), None);
    Ok(())
}

#[test]
fn output_is_told_once(rt: HostRuntime) -> Result<(), Fail> {
    let alloc = rt.alloc();
    let program = program_of(alloc, LOOP)?;
    let mut debugger = debugger_of(alloc, &program)?;
    debugger.set_breakpoints(alloc, &[40])?;
    debugger.continue_(alloc, LIMIT, &mut Unwatched)?;
    assert_eq!(rt; debugger.fresh_output(alloc)?.as_slice(), b"3\r".as_slice());
    debugger.to_time(alloc, 0, LIMIT, &mut Unwatched)?;
    assert_eq!(rt; debugger.fresh_output(alloc)?.as_slice(), b"".as_slice());
    for wanted in ["", "2\r", "1\r"] {
        debugger.continue_(alloc, LIMIT, &mut Unwatched)?;
        assert_eq!(rt; debugger.fresh_output(alloc)?.as_slice(), wanted.as_bytes());
    }
    Ok(())
}

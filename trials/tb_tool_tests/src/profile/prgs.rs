//! Profiles of PRG files, by address, and files that fail.
use std::alloc::{AllocError, Global};
use std::test::Fail;
use tb_program_files::profile_prg_file;
use tb_kernal::Quiet;
use tb_engine_profile::Run;
use tb_test_support::{Shelf, keyboard_of};
use tb_kernal::Unwatched;

/// A PRG file, what each poll gives, the status, and the table.
type Row = (&'static [u8], &'static [u8], u8, &'static [u8]);

/// A routine that sends an H: 2 cycles, then 6 each.
const SENDS: &[u8] = b"\x00\xc0\xa9\x48\x20\xd2\xff\x60";

const SENT: &[u8] = b" addr      times        cycles   share  instruction
 C000          1             2   10.0%  LDA #$48
 C002          1             6   30.0%  JSR $FFD2
 C005          1             6   30.0%  RTS
 FFD2          1             6   30.0%  chrout
  sum          4            20  100.0%
";

static ROWS: [Row; 5] = [
    (SENDS, b"", 0, SENT),
    // A loop of three rounds: the branch takes 3 cycles twice, and then 2.
    (
        b"\x00\xc0\xa2\x03\xca\xd0\xfd\x60",
        b"",
        0,
        b" addr      times        cycles   share  instruction
 C000          1             2    9.1%  LDX #$03
 C002          3             6   27.3%  DEX
 C003          3             8   36.4%  BNE $C002
 C005          1             6   27.3%  RTS
  sum          8            22  100.0%
",
    ),
    // A poll, and a byte that is no instruction.
    (
        b"\x00\xc0\x20\xe4\xff\x02",
        b"A",
        7,
        b" addr      times        cycles   share  instruction
 C000          1             6   50.0%  JSR $FFE4
 C003          1             0    0.0%  .byte $02
 FFE4          1             6   50.0%  getin
  sum          3            12  100.0%
",
    ),
    // An instruction that is changed after it was done: it is shown as it is at the end.
    (
        b"\x00\xc0\xa9\xea\x8d\x00\xc0\x60",
        b"",
        0,
        b" addr      times        cycles   share  instruction
 C000          1             2   16.7%  NOP
 C002          1             4   33.3%  STA $C000
 C005          1             6   50.0%  RTS
  sum          3            12  100.0%
",
    ),
    (b"\x00\xd0\x60", b"", 1, b""),
];

// The status of profiling the file that a shelf holds.
fn profiled(
    alloc: Global,
    shelf: &mut Shelf<'_>,
    answers: &'static [u8],
) -> Result<u8, AllocError> {
    let run = Run {
        keyboard: keyboard_of(alloc, b"", answers)?,
        limit: 1000,
        outside: Quiet,
        watch: Unwatched,
    };
    Ok(profile_prg_file(alloc, shelf, "a.prg", run).status())
}

#[test]
fn what_instructions_take(rt: HostRuntime) -> Result<(), Fail> {
    let alloc = rt.alloc();
    for (file, answers, wanted, table) in &ROWS {
        let mut shelf = Shelf::new(alloc, file, usize::MAX, 1);
        assert_eq!(rt; profiled(alloc, &mut shelf, answers)?, *wanted);
        let written = shelf.saved.pop().unwrap_or(Vec::new(alloc));
        assert_eq!(rt; written.as_slice(), *table);
    }
    Ok(())
}

#[test]
fn files_that_fail_at_a_profile_of_a_prg(rt: HostRuntime) -> Result<(), Fail> {
    let alloc = rt.alloc();
    for until_fault in 0..=SENDS.len() {
        let mut shelf = Shelf::new(alloc, SENDS, until_fault, 1);
        assert_eq!(rt; profiled(alloc, &mut shelf, b"")?, 3, "after {until_fault}");
        assert!(rt; shelf.saved.is_empty(), "after {until_fault}");
    }
    assert_eq!(rt;
        profiled(alloc, &mut Shelf::new(alloc, SENDS, usize::MAX, 0), b"")?,
        3
    );
    Ok(())
}

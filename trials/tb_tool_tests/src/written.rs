//! Runs whose output is written as it comes.
use std::alloc::Global;
use std::test::Fail;
use tb_engines::{Outcome, run_prg, run_stretch, run_writing, start_file};
use tb_kernal::{Keyboard, Machine, Quiet, Status};
use tb_engine_streams::{Tracked, write_shown};
use tb_basic_text::Notation;
use tb_test_support::FailingWriter;
use tb_kernal::{STRETCH, Watch};
use tb_words::decimal_digits;

/// A PRG file for `$C000` that sends `A` for ever: LDA #$41, JSR $FFD2, JMP $C000. So each fourth event sends one.
const ENDLESS: [u8; 10] = [0x00, 0xc0, 0xa9, 0x41, 0x20, 0xd2, 0xff, 0x4c, 0x00, 0xc0];

/// As many of them are sent in a stretch.
const SENT: usize = 16_384;

/// Notes how often it heard something, and of how many events last.
#[derive(Drop)]
struct Log {
    began: usize,
    took: usize,
    events: u64,
    ended: usize,
}

impl Watch for Log {
    ghost hears = { λ _ _ _. Unit {0} };

    fn began(&mut self) {
        self.began = self.began.saturating_add(1);
    }

    fn took(&mut self, events: u64) {
        self.took = self.took.saturating_add(1);
        self.events = events;
    }

    fn ended(&mut self) {
        self.ended = self.ended.saturating_add(1);
    }
}

fn no_keys(alloc: Global) -> Keyboard {
    Keyboard {
        text: Vec::new(alloc),
        answers: Vec::new(alloc),
    }
}

fn endless(alloc: Global) -> Result<Machine, Fail> {
    match start_file(alloc, &ENDLESS, no_keys(alloc)) {
        Ok(machine) => Ok(machine),
        Err(_) => Err(Fail::new("it does not start")),
    }
}

#[test]
fn output_is_written_after_each_stretch(rt: HostRuntime) -> Result<(), Fail> {
    let mut machine = endless(rt.alloc())?;
    machine.reserve(40)?;
    let mut writer = Tracked::new(Vec::new(rt.alloc()));
    let first = run_stretch(&mut machine, &mut Quiet, 40, &mut writer, true, Notation::Plain);
    assert_eq!(rt; first.status, Status::Running);
    assert!(rt; first.is_written);
    assert_eq!(rt; writer.stream.as_slice(), b"AAAAAAAAAA".as_slice());
    machine.reserve(40)?;
    let second = run_stretch(&mut machine, &mut Quiet, 36, &mut writer, true, Notation::Plain);
    assert!(rt; second.is_written);
    assert_eq!(rt; writer.stream.len(), 19);
    let silent = run_stretch(&mut machine, &mut Quiet, 4, &mut writer, false, Notation::Plain);
    assert!(rt; !silent.is_written);
    assert_eq!(rt; writer.stream.len(), 19);
    assert_eq!(rt; machine.sent(), b"AAAAAAAAAAAAAAAA".as_slice());
    Ok(())
}

#[test]
fn a_run_goes_in_stretches(rt: HostRuntime) -> Result<(), Fail> {
    let mut machine = endless(rt.alloc())?;
    let mut writer = Tracked::new(Vec::new(rt.alloc()));
    let mut log = Log {
        began: 0,
        took: 0,
        events: 0,
        ended: 0,
    };
    let limit = 3 * STRETCH + 8;
    let run = run_writing(&mut machine, &mut Quiet, limit, &mut writer, &mut log, Notation::Plain)?;
    assert_eq!(rt; run.status, Status::Running);
    assert!(rt; run.is_written);
    assert_eq!(rt; writer.stream.len(), 3 * SENT + 2);
    assert!(rt; writer.stream.iter().all(|byte| *byte == b'A'));
    assert_eq!(rt; (log.began, log.took, log.events, log.ended), (1, 3, 196_608, 1));
    assert!(rt; machine.sent().len() <= 18);
    assert!(rt; machine.room() >= SENT);
    Ok(())
}

#[test]
fn a_writer_fails_in_the_middle_of_a_run(rt: HostRuntime) -> Result<(), Fail> {
    for until_fault in [0, 1, 1023, 1024, 1025, SENT, SENT + 5] {
        let mut reader = Tracked::new(ENDLESS.as_slice());
        let mut writer = Tracked::new(FailingWriter::new(rt.alloc(), until_fault, 500));
        let outcome = run_prg(
            rt.alloc(),
            &mut reader,
            &mut writer,
            no_keys(rt.alloc()),
            2 * STRETCH,
            &mut Quiet,
        );
        assert_eq!(rt; outcome, Outcome::WriteFault);
        assert_eq!(rt; writer.stream.taken.len(), until_fault);
        assert_eq!(rt; writer.failures(), 1);
    }
    Ok(())
}

#[test]
fn sent_bytes_are_written_in_the_host_form(rt: HostRuntime) -> Result<(), Fail> {
    let mut writer = Tracked::new(Vec::new(rt.alloc()));
    let written = write_shown(&mut writer, &[72, 73, 13, 147, 91], Notation::Plain);
    assert!(rt; written.is_ok());
    assert_eq!(rt; writer.stream.as_slice(), b"HI\n{93}{5B}".as_slice());
    let many = [13u8; 2049];
    let mut lines = Tracked::new(Vec::new(rt.alloc()));
    assert!(rt; write_shown(&mut lines, &many, Notation::Signs).is_ok());
    assert_eq!(rt; lines.stream.len(), 2049);
    let wide = [129u8; 1025];
    let mut names = Tracked::new(Vec::new(rt.alloc()));
    assert!(rt; write_shown(&mut names, &wide, Notation::Signs).is_ok());
    assert_eq!(rt; names.stream.len(), 6_150);
    let mut few = Tracked::new(Vec::new(rt.alloc()));
    assert!(rt; write_shown(&mut few, &[13, 34, 65, 91, 93, 97, 147, 241], Notation::Signs).is_ok());
    assert_eq!(rt; few.stream.as_slice(), b"\n\"A[]{61}{clr}{F1}".as_slice());
    Ok(())
}

#[test]
fn numbers_have_their_decimal_digits(rt: HostRuntime) -> Result<(), Fail> {
    assert_eq!(rt; decimal_digits(0).as_slice(), b"0".as_slice());
    assert_eq!(rt; decimal_digits(907).as_slice(), b"907".as_slice());
    assert_eq!(rt; decimal_digits(65_535).as_slice(), b"65535".as_slice());
    Ok(())
}

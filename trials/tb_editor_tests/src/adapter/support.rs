//! What the tests of the debug adapter share: sources that are there, frames, and dialogues as texts.
use std::alloc::Global;
use std::io::Read;
use std::test::Fail;
use tb_engine_check::Sources;
use tb_codegen::TinyBasic;
use tb_dap_adapter::{Usual, serve};
use tb_engine_streams::{InputError, Tracked};
use tb_test_support::FailingReader;
use tb_basic_text::Notation;

/// Where the source is.
pub const PATH: &str = "/a/t.bas";

/// The seed that the clock gives.
pub const CLOCK: u16 = 4711;

/// One source, at `PATH`.
#[derive(Drop)]
pub struct One<'a> {
    pub text: &'a [u8],
}

impl Sources for One<'_> {
    ghost use Rattle.std.specs.Prelude.{⊤};

    ghost reads = { λ _ _ _ _. ⊤ };

    fn read(&mut self, alloc: Global, name: &str) -> Result<Vec<u8>, InputError> {
        if name != PATH {
            return Err(InputError::Fault);
        }
        match Vec::from_slice(alloc, self.text) {
            Ok(text) => Ok(text),
            Err(_) => Err(InputError::NoMemory),
        }
    }
}

/// Frames with these contents.
pub fn frames(alloc: Global, contents: &[&str]) -> Result<Vec<u8>, Fail> {
    let mut bytes = Vec::new(alloc);
    for content in contents {
        let length = content.len();
        let content = *content;
        bytes.extend_from_slice(format!(in alloc;
            "Content-Length: {length}\r\n\r\n{content}"
        )?.as_bytes())?;
    }
    Ok(bytes)
}

/// The status of a dialogue, and what was answered.
pub fn served<R: Read + Drop>(alloc: Global, source: &[u8], reader: R) -> (u8, Vec<u8>) {
    served_in(alloc, Notation::Plain, source, reader)
}

/// The same of an adapter that has a notation.
pub fn served_in<R: Read + Drop>(
    alloc: Global,
    notation: Notation,
    source: &[u8],
    reader: R,
) -> (u8, Vec<u8>) {
    let mut reader = Tracked::new(reader);
    let mut writer = Tracked::new(Vec::new(alloc));
    let mut sources = One { text: source };
    let outcome = serve(
        &TinyBasic,
        alloc,
        Usual {
            notation,
            clock: Some(CLOCK),
        },
        &mut sources,
        &mut reader,
        &mut writer,
    );
    (outcome.status(), writer.stream)
}

/// What is answered to messages, whose dialogue ends well.
pub fn answers(alloc: Global, source: &[u8], messages: &[&str]) -> Result<Vec<u8>, Fail> {
    answers_in(alloc, Notation::Plain, source, messages)
}

/// The same of an adapter that has a notation.
pub fn answers_in(
    alloc: Global,
    notation: Notation,
    source: &[u8],
    messages: &[&str],
) -> Result<Vec<u8>, Fail> {
    let asked = frames(alloc, messages)?;
    answered_in(alloc, notation, source, asked.as_slice())
}

/// What is answered to frames, whose dialogue ends well.
pub fn answered(alloc: Global, source: &[u8], asked: &[u8]) -> Result<Vec<u8>, Fail> {
    answered_in(alloc, Notation::Plain, source, asked)
}

// The same of an adapter that has a notation.
fn answered_in(
    alloc: Global,
    notation: Notation,
    source: &[u8],
    asked: &[u8],
) -> Result<Vec<u8>, Fail> {
    let reader = FailingReader::new(asked, usize::MAX, 4096);
    let (status, answers) = served_in(alloc, notation, source, reader);
    if status == 0 {
        Ok(answers)
    } else {
        Err("the dialogue ended badly")?
    }
}

/// A text of bytes.
pub fn shown(bytes: &[u8]) -> &str {
    str::from_utf8(bytes).unwrap_or("no UTF-8")
}

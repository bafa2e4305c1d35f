//! Checks of sources that lie in memory.
ghost use Rattle.std.specs.Prelude.{⊤};

use crate::notation::decoded;
use crate::page::Page;
use std::alloc::{AllocError, Global};
use std::io::Write;
use std::str;
use tb_engine_findings::CheckSettings;
use tb_engine_check::{CheckOutcome, Sources, check_sources};
use tb_codegen::TinyBasic;
use tb_compiled::{Notation, SizeLimit};
use tb_engine_streams::{InputError, Tracked, read_input};
use tb_test_support::FailingReader;

/// What the sources of a row are called.
const NAMES: [&str; 4] = ["a.bas", "b.bas", "c.bas", "d.bas"];

/// A source of a row; no bytes if it can't be read.
#[derive(Drop)]
pub struct File {
    pub name: &'static str,
    pub bytes: Option<Vec<u8>>,
}

/// What a check wrote, and how it ended.
#[derive(Drop)]
pub struct Ending {
    pub outcome: CheckOutcome,
    pub wrote: Vec<u8>,
}

/// The sources of a row.
pub fn files_of(page: &mut Page, given: &str) -> Vec<File> {
    let mut files = Vec::new(page.alloc());
    for (part, name) in given.split(" | ").zip(NAMES) {
        let bytes = match part {
            "!" => None,
            _ => Some(decoded(page, part)),
        };
        let filed = files.push(File { name, bytes });
        page.held(filed);
    }
    files
}

/// Sources that lie in memory; one of them may come from a reader that fails.
#[derive(Drop)]
pub struct Folder<'a> {
    pub files: &'a [File],
    pub failing: Option<Failing<'a>>,
}

/// A source that comes from a reader.
#[derive(Drop)]
pub struct Failing<'a> {
    pub name: &'static str,
    pub reader: FailingReader<'a>,
}

impl Sources for Folder<'_> {
    ghost reads = { λ _ _ _ _. ⊤ };

    fn read(&mut self, alloc: Global, name: &str) -> Result<Vec<u8>, InputError> {
        match self.failing.take() {
            Some(failing) if failing.name == name => {
                read_input(alloc, &mut Tracked::new(failing.reader))
            }
            failing => {
                self.failing = failing;
                self.file(alloc, name)
            }
        }
    }
}

impl Folder<'_> {
    fn file(&self, alloc: Global, name: &str) -> Result<Vec<u8>, InputError> {
        for file in self.files {
            if file.name == name {
                return match &file.bytes {
                    Some(bytes) => read_input(alloc, &mut Tracked::new(bytes.as_slice())),
                    None => Err(InputError::Fault),
                };
            }
        }
        Err(InputError::Fault)
    }

    /// The names of all sources, in their order.
    pub fn names(&self, alloc: Global) -> Result<Vec<String>, AllocError> {
        let mut names = Vec::new(alloc);
        if let Some(failing) = &self.failing {
            names.push(String::from_str(alloc, failing.name)?)?;
        }
        for file in self.files {
            names.push(String::from_str(alloc, file.name)?)?;
        }
        Ok(names)
    }
}

/// A folder of files.
pub fn folder_of(files: &[File]) -> Folder<'_> {
    Folder {
        files,
        failing: None,
    }
}

/// Checks the sources of a folder, whose programs are too large by this limit.
pub fn check_folder<W: Write>(
    alloc: Global,
    mut folder: Folder<'_>,
    writer: &mut Tracked<W>,
    size: SizeLimit,
) -> CheckOutcome {
    match folder.names(alloc) {
        Ok(names) => {
            let settings = CheckSettings {
                size,
                notation: Notation::Plain,
            };
            check_sources(
                &TinyBasic,
                alloc,
                &mut folder,
                names.as_slice(),
                writer,
                settings,
            )
        }
        Err(_) => CheckOutcome::NoMemory,
    }
}

/// What a check of a folder writes, and how it ends.
pub fn ending_of(alloc: Global, folder: Folder<'_>, size: SizeLimit) -> Ending {
    let mut writer = Tracked::new(Vec::new(alloc));
    let outcome = check_folder(alloc, folder, &mut writer, size);
    Ending {
        outcome,
        wrote: writer.stream,
    }
}

/// Appends what a check of sources writes, and how it ends.
pub fn put_check(page: &mut Page, files: &[File], size: SizeLimit) {
    let ending = ending_of(page.alloc(), folder_of(files), size);
    if ending.outcome == CheckOutcome::NoMemory {
        page.fail();
    }
    put_ending(page, &ending);
}

fn put_ending(page: &mut Page, ending: &Ending) {
    let text = str::from_utf8(&ending.wrote);
    if let Some(text) = page.held(text) {
        page.put(text);
    }
    put_outcome(page, ending.outcome);
}

/// Appends a status, and what standard error says of it.
pub fn put_outcome(page: &mut Page, outcome: CheckOutcome) {
    page.put("=> ");
    page.put(outcome.status());
    page.put(" \"");
    page.put(outcome);
    page.put("\"\n");
}

//! Worked rows of assembler texts. A row begins with `== ` and its name; a line `-- PATH` begins the next file of a row, and
//! all other lines are lines of the file `a.asm` or of that one. Each name is written, and what is answered of `a.asm`:
//! where the image begins and its bytes, or all that is wrong.
#![tactic(auto)]

use std::alloc::{AllocError, Global};
use std::fs;
use std::process::ExitCode;
use std::rt::Files;
use tb_assembly_output::{Assembled, AssemblyError, Manner, SourceFile, assemble_texts};

// The files of rows, and whether branches become long there that do not reach.
const FILES: [(&str, bool); 5] = [
    ("lines.txt", false),
    ("meanings.txt", false),
    ("includes.txt", false),
    ("images.txt", false),
    ("long.txt", true),
];

// The bytes of a PRG file: the address, and the others.
fn push_image(text: &mut String, prg: &[u8]) -> Result<(), AllocError> {
    let [low, high, bytes @ ..] = prg else {
        return Ok(());
    };
    if write!(text, "{:04X}:", u16::from_le_bytes([*low, *high])).is_err() {
        return Err(AllocError);
    }
    for byte in bytes {
        if write!(text, " {:02X}", *byte).is_err() {
            return Err(AllocError);
        }
    }
    text.push_str("\n")
}

fn push_answer(
    alloc: Global,
    text: &mut String,
    library: &[SourceFile],
    long: bool,
) -> Result<(), AllocError> {
    let manner = Manner { at: 0xc000, long };
    match assemble_texts(alloc, library, manner) {
        Ok(Assembled::Made(made)) => push_image(text, &made.prg),
        Ok(Assembled::Refused(said)) => { text.push_str(&String::from_utf8_lossy(alloc, &said)?) }
        Ok(Assembled::Wants(path)) => {
            text.push_str("wants ")?;
            text.push_str(&String::from_utf8_lossy(alloc, &path)?)?;
            text.push_str("\n")
        }
        Ok(Assembled::Unread) => text.push_str("unread\n"),
        Err(AssemblyError::Item(_)) => text.push_str("item\n"),
        Err(AssemblyError::NoMemory) => text.push_str("out of memory\n"),
    }
}

fn push_file(alloc: Global, library: &mut Vec<SourceFile>, path: &str) -> Result<(), AllocError> {
    library.push(SourceFile {
        path: Vec::from_slice(alloc, path.as_bytes())?,
        text: Some(Vec::new(alloc)),
    })?;
    Ok(())
}

// A line of the last file; `-- PATH !` is a file that can't be read.
fn push_line(library: &mut Vec<SourceFile>, line: &str) -> Result<(), AllocError> {
    if let Some(file) = library.last_mut() {
        if let Some(text) = &mut file.text {
            text.extend_from_slice(line.as_bytes())?;
            text.extend_from_slice(b"\n")?;
        }
    }
    Ok(())
}

fn push_section(
    alloc: Global,
    library: &mut Vec<SourceFile>,
    path: &str,
) -> Result<(), AllocError> {
    match path.strip_suffix(" !") {
        Some(path) => {
            library.push(SourceFile {
                path: Vec::from_slice(alloc, path.as_bytes())?,
                text: None,
            })?;
            Ok(())
        }
        None => push_file(alloc, library, path),
    }
}

// Appends the answers of rows.
fn push_rows(alloc: Global, text: &mut String, rows: &str, long: bool) -> Result<(), AllocError> {
    let mut library: Vec<SourceFile> = Vec::new(alloc);
    for line in rows.lines() {
        if line.starts_with("== ") {
            if !library.is_empty() {
                push_answer(alloc, text, &library, long)?;
            }
            text.push_str(line)?;
            text.push_str("\n")?;
            library = Vec::new(alloc);
            push_file(alloc, &mut library, "a.asm")?;
        } else if let Some(path) = line.strip_prefix("-- ") {
            push_section(alloc, &mut library, path)?;
        } else {
            push_line(&mut library, line)?;
        }
    }
    push_answer(alloc, text, &library, long)
}

fn answers<R: Files + AllocGlobal>(rt: &R) -> Option<String> {
    let alloc = rt.alloc();
    let mut text = String::new(alloc);
    for (path, long) in FILES {
        let rows = fs::read_to_string(rt, path).ok()?;
        push_rows(alloc, &mut text, &rows, long).ok()?;
    }
    Some(text)
}

fn main(rt: HostRuntime) -> ExitCode {
    match answers(&rt) {
        Some(text) => {
            // Nobody can be told that standard output fails.
            let _ = print!(rt; "{text}");
            ExitCode::SUCCESS
        }
        None => ExitCode::FAILURE,
    }
}

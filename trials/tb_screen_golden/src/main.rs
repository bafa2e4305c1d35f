//! Worked screens: each line of the input is bytes that a program sends, in hexadecimal digits. What is answered is where
//! the cursor is after them, and the MD5 of the frame. `tools/screen_model.py` writes the input and the wanted answers.
#![tactic(auto)]

use md5::{Digest, Md5};
use std::alloc::Global;
use std::io::{self, BufRead, BufReader, Write};
use tb_machine_screen::Screen;
use tb_machine_screen::frame;

// What is answered of bytes that are sent.
fn answer(alloc: Global, sent: &[u8]) -> anyhow::Result<String> {
    let mut screen = Screen::new();
    screen.print_all(sent);
    let mut hasher = Md5::new();
    hasher.update(frame(alloc, &screen)?.as_bytes());
    let digest = hex::encode(alloc, hasher.finalize())?;
    Ok(format!(in alloc; "{} {} {digest}", screen.row(), screen.column())?)
}

fn main(rt: HostRuntime) -> anyhow::Result<()> {
    let alloc = rt.alloc();
    for line in BufReader::new(alloc, rt.reader())?.lines(alloc) {
        let sent = hex::decode(alloc, line?)?;
        println!(rt; "{}", answer(alloc, &sent)?)?;
    }
    Ok(())
}

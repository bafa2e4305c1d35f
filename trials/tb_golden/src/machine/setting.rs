//! What the words of a row say of registers, memory and keyboard.
//!
//! `A=46` sets a register. `P=N.D..C` sets the flags that it names, and clears the others. A byte in hex goes to the
//! address that `C100:` or `PC=C100` names, and each further byte to the next address. `?0020` asks for a byte.
//! `text=K` and `answer=03` are the keyboard's. `hello` stands for the bytes of the example of reaching.
use crate::machine::writing::put_read;
use crate::notation::{hex_byte, hex_word};
use crate::page::Page;
use std::alloc::Global;
use std::mem;
use tb_cpu::{Flags, Regs};
use tb_engines::start_regs;
use tb_kernal::Keyboard;
use tb_memmap::Memory;
use tb_machine_reaching::HELLO;

/// The address where programs lie.
pub const PROGRAM_AT: u16 = 0xc000;

/// The registers before a program.
pub fn first_regs() -> Regs {
    start_regs(PROGRAM_AT)
}

/// What a row says of registers, memory and keyboard.
#[derive(Drop)]
pub struct Setting {
    pub regs: Regs,
    pub bytes: Vec<(u16, u8)>,
    asked: Vec<u16>,
    text: Vec<u8>,
    answers: Vec<u8>,
    place: u16,
}

impl Setting {
    /// The registers before a program, no bytes, and no keys.
    pub fn new(alloc: Global) -> Setting {
        Setting {
            regs: first_regs(),
            bytes: Vec::new(alloc),
            asked: Vec::new(alloc),
            text: Vec::new(alloc),
            answers: Vec::new(alloc),
            place: 0,
        }
    }

    /// Takes the words of a row in place of those of the row before.
    pub fn read(&mut self, page: &mut Page, regs: Regs, words: &str) {
        self.regs = regs;
        self.place = regs.pc;
        self.bytes.clear();
        self.asked.clear();
        self.text.clear();
        self.answers.clear();
        for word in words.split_whitespace() {
            self.take(page, word);
        }
    }

    fn take(&mut self, page: &mut Page, word: &str) {
        if let Some((name, value)) = word.split_once('=') {
            self.set(page, name, value);
        } else if let Some(address) = word.strip_prefix('?') {
            let asked = self.asked.push(hex_word(page, address));
            page.held(asked);
        } else if let Some((address, _)) = word.split_once(':') {
            self.place = hex_word(page, address);
        } else if word == "hello" {
            self.put_next(page, &HELLO);
        } else {
            let byte = hex_byte(page, word);
            self.put_next(page, &[byte]);
        }
    }

    /// Has bytes put at the next addresses.
    pub fn put_next(&mut self, page: &mut Page, bytes: &[u8]) {
        for &byte in bytes {
            let put = self.bytes.push((self.place, byte));
            page.held(put);
            self.place = self.place.wrapping_add(1);
        }
    }

    fn set(&mut self, page: &mut Page, name: &str, value: &str) {
        match name {
            "P" => self.regs.flags = flags(value),
            "PC" => {
                self.place = hex_word(page, value);
                self.regs.pc = self.place;
            }
            "text" => {
                let typed = self.text.extend_from_slice(value.as_bytes());
                page.held(typed);
            }
            _ => {
                let byte = hex_byte(page, value);
                self.set_byte(page, name, byte);
            }
        }
    }

    fn set_byte(&mut self, page: &mut Page, name: &str, value: u8) {
        match name {
            "A" => self.regs.a = value,
            "X" => self.regs.x = value,
            "Y" => self.regs.y = value,
            "S" => self.regs.s = value,
            _ => {
                let answered = self.answers.push(value);
                page.held(answered);
            }
        }
    }

    /// Puts the bytes into a memory.
    pub fn put(&self, page: &mut Page, memory: &mut Memory) {
        for &(address, byte) in &self.bytes {
            let written = memory.write(address, byte);
            page.held(written);
        }
    }

    /// Hands over the keyboard, and leaves an empty one here.
    pub fn keyboard(&mut self, alloc: Global) -> Keyboard {
        Keyboard {
            text: mem::replace(&mut self.text, Vec::new(alloc)),
            answers: mem::replace(&mut self.answers, Vec::new(alloc)),
        }
    }

    /// Writes the bytes that are asked for.
    pub fn put_asked(&self, page: &mut Page, memory: &Memory) {
        for &address in &self.asked {
            page.put(" ");
            page.put_low_word(address);
            page.put(":");
            put_read(page, memory.read(address));
        }
    }
}

// The flags whose letters occur in a text.
fn flags(text: &str) -> Flags {
    Flags {
        n: text.contains('N'),
        v: text.contains('V'),
        d: text.contains('D'),
        i: text.contains('I'),
        z: text.contains('Z'),
        c: text.contains('C'),
    }
}

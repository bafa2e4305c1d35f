//! Machines with compiled programs, at their start.
use crate::notation::{bytes_of, hex_word};
use crate::page::Page;
use tb_compiled::Compiled;
use tb_engines::start_regs;
use tb_kernal::{Machine, Outside};
use tb_memmap::{BASIC_START, Memory};
use tb_stepper::Stepper;
use tb_test_support::keyboard_of;

/// What a machine starts with.
#[derive(Clone, Copy)]
pub struct Start<'a> {
    pub program: &'a Compiled,
    /// What lies in memory, as `080D=A90560 C000=05`; if nothing is named, the program's file.
    pub loads: &'a str,
    pub text: &'a [u8],
    pub answers: &'a [u8],
}

fn load(page: &mut Page, memory: &mut Memory, at: u16, bytes: &[u8]) {
    let loaded = memory.load(at, bytes);
    page.held(loaded);
}

// Loads `080D=A90560`.
fn load_digits(page: &mut Page, memory: &mut Memory, digits: &str) {
    let (at, bytes) = digits.split_once('=').unwrap_or(("", ""));
    let at = hex_word(page, at);
    let bytes = bytes_of(page, bytes);
    load(page, memory, at, &bytes);
}

impl<'a> Start<'a> {
    // Loads what lies in memory, with a return to $A100.
    fn load(self, page: &mut Page, memory: &mut Memory) {
        if self.loads.is_empty() {
            let file = tb_prg::read(self.program.prg());
            if let Some(file) = page.held(file) {
                load(page, memory, file.at, file.bytes);
            }
        }
        for digits in self.loads.split_whitespace() {
            load_digits(page, memory, digits);
        }
        load(page, memory, 0x01f1, &[0xff, 0xa0]);
    }

    /// The machine.
    pub fn machine(self, page: &mut Page) -> Option<Machine> {
        let keyboard = keyboard_of(page.alloc(), self.text, self.answers);
        let keyboard = page.held(keyboard)?;
        let memory = Memory::new(page.alloc());
        let mut memory = page.held(memory)?;
        self.load(page, &mut memory);
        let machine = Machine::enter(page.alloc(), memory, start_regs(BASIC_START), keyboard);
        page.held(machine)
    }

    /// A stepper of the machine.
    pub fn stepper<O: Outside + Drop>(self, page: &mut Page, outside: O) -> Option<Stepper<'a, O>> {
        let machine = self.machine(page)?;
        let stepper = Stepper::new(page.alloc(), machine, self.program, outside);
        page.held(stepper)
    }
}

/// Whether two machines are the same in all that can be seen of them.
pub fn are_same(one: &Machine, other: &Machine) -> bool {
    one.regs() == other.regs()
        && one.status() == other.status()
        && one.sent() == other.sent()
        && one.keys_left() == other.keys_left()
        && have_same_bytes(one.memory(), other.memory())
}

// Whether all bytes that can be read are the same.
fn have_same_bytes(one: &Memory, other: &Memory) -> bool {
    for address in 0..=0xffff {
        if one.read(address) != other.read(address) {
            return false;
        }
    }
    true
}

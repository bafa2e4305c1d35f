//! ROMs of a caller's own.
ghost use Rattle.std.specs.Prelude.{◌≡◌, true};
ghost use Rattle.tb_kernal.specs.Outsides.{rude_writes};

use arrayvec::ArrayVec;
use tb_kernal::{Clobber, Event, Machine, Outside, Quiet, Writes};

/// A byte for both ends of each region that the ROM may write, and for an address between, if the stack pointer is `s`.
pub fn everywhere(s: u8, value: u8) -> Writes
    ensures { result.items ≡ rude_writes s value }
{
    ArrayVec::from([
        (0x0002, value),
        (0x00fa, value),
        (0x00ff, value),
        (0x0200, value),
        (0x07ff, value),
        (0x0100, value),
        (0x0100 + u16::from(s / 2), value),
        (0x0100 + u16::from(s), value),
    ])
}

/// Interrupts before each Go, and leaves each register and flag other than it was.
#[derive(Drop)]
pub struct Contrary {
    interrupts: bool,
}

impl Contrary {
    /// The outside whose first event is an interrupt.
    pub fn new() -> Contrary {
        Contrary { interrupts: false }
    }
}

impl Outside for Contrary {
    ghost use Rattle.std.specs.Prelude.{◌≡◌, true};
    ghost use Rattle.tb_kernal.specs.Rom.{all_writable};
    ghost use Rattle.tb_kernal.specs.LawfulEvents.{writes_of, lawful_by};

    ghost gives = { λ _ m e _. all_writable m.regs.s (writes_of e) ≡ true };

    ghost gives_lawful = { λ _ m e _ h. lawful_by m e h };

    ghost gives_blindly = { λ _ _ _ _ _ h. h };

    fn next(&mut self, machine: &Machine) -> Event {
        let regs = machine.regs();
        self.interrupts = !self.interrupts;
        if self.interrupts {
            return Event::Interrupt(everywhere(regs.s, 255 - regs.a));
        }
        Event::Go(Clobber {
            a: 255 - regs.a,
            x: 255 - regs.x,
            y: 255 - regs.y,
            n: !regs.flags.n,
            v: !regs.flags.v,
            i: !regs.flags.i,
            z: !regs.flags.z,
            c: !regs.flags.c,
            writes: everywhere(regs.s, regs.a),
        })
    }
}

/// Interrupts before each Go of a quiet ROM, with `$FF` for the next seven addresses. The addresses go round through
/// all that the ROM may write.
#[derive(Drop)]
pub struct Sweeping {
    interrupts: bool,
    place: u16,
}

impl Sweeping {
    /// The outside whose first event is an interrupt.
    pub fn new() -> Sweeping {
        Sweeping {
            interrupts: false,
            place: 0,
        }
    }
}

impl Outside for Sweeping {
    ghost use Rattle.std.specs.Prelude.{◌≡◌, true};
    ghost use Rattle.std.proofs.Common.{◌∙◌};
    ghost use Rattle.tb_kernal.specs.LawfulEvents.{same_lawful};
    ghost use Rattle.tb_kernal.specs.Machine.{state_of, is_lawful};

    ghost gives = { λ _ m e _. is_lawful (state_of m) e ≡ true };

    ghost gives_lawful = { λ _ m e _ h. h };

    ghost gives_blindly = { λ _ m e _ sent h. same_lawful e m sent ∙ h };

    fn next(&mut self, machine: &Machine) -> Event {
        self.interrupts = !self.interrupts;
        if self.interrupts {
            let mut writes: Writes = ArrayVec::new();
            for _ in 0..7 {
                self.place = self.place.wrapping_add(1) % 0x0800;
                let _ = writes.try_push((self.place, 0xff));
            }
            let event = Event::Interrupt(writes);
            if machine.lawful(&event) {
                return event;
            }
        }
        Quiet.next(machine)
    }
}

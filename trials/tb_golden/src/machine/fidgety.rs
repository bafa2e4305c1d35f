//! An outside of a caller's own.
ghost use Rattle.std.specs.Prelude.{◌≡◌, true};

use crate::machine::events::go;
use arrayvec::ArrayVec;
use tb_kernal::{Event, Machine, Outside, Quiet};

/// Each Go comes after an Interrupt with no writes.
#[derive(Drop)]
pub struct Fidgety {
    pub interrupts: bool,
}

impl Outside for Fidgety {
    ghost use Rattle.std.proofs.Common.{◌∙◌};
    ghost use Rattle.tb_kernal.specs.LawfulEvents.{same_lawful};
    ghost use Rattle.tb_kernal.specs.Machine.{Content, state_of, is_lawful};

    ghost gives = { λ _ m e _. is_lawful (state_of m) e ≡ true };

    ghost gives_lawful = { λ _ m e _ h. h };

    ghost gives_blindly = { λ _ m e _ sent h. same_lawful e m sent ∙ h };

    fn next(&mut self, machine: &Machine) -> Event {
        self.interrupts = !self.interrupts;
        let event = if self.interrupts {
            Event::Interrupt(ArrayVec::new())
        } else {
            go()
        };
        if machine.lawful(&event) {
            event
        } else {
            Quiet.next(machine)
        }
    }
}

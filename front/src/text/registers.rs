//! Which registers the instructions of a thread have set so far.

use crate::case::Instruction;
use crate::messages::What;
use crate::sizes;

#[derive(Default)]
pub struct Registers {
    set: [bool; sizes::REGISTERS],
    /// Whether some line of the thread cannot be read: it may set any.
    is_unsure: bool,
}

impl Registers {
    pub fn doubt(&mut self) {
        self.is_unsure = true;
    }

    /// What is wrong where the instruction needs a register that none before it sets; what it sets itself counts behind it.
    pub fn pass(&mut self, instruction: &Instruction, thread: usize) -> Option<What> {
        let what = match *instruction {
            Instruction::StoreRegister { register, .. } => self.lacks("stored", register, thread),
            Instruction::Compare { register, .. } => self.lacks("compared", register, thread),
            _ => None,
        };
        match *instruction {
            Instruction::Load { register, .. }
            | Instruction::Exchange { register, .. }
            | Instruction::Compare { register, .. } => self.set[register as usize] = true,
            _ => {}
        }
        what
    }

    fn lacks(&self, done: &'static str, register: u8, thread: usize) -> Option<What> {
        let is_known = self.is_unsure || self.set[register as usize];
        (!is_known).then_some(What::Unset(done, register, thread))
    }
}

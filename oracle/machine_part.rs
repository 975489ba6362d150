//! The machine part: registers and the step of machine.rs.
use crate::answers::{Answer, no};
use crate::fields::Fields;
use crate::host::Host;
use crate::instructions::decode_error;
use crate::panics::caught;
use crate::undo::Undoable;
use rust16vm::machine::{Machine, Register, State, registers};
use rust16vm::memory::Addressable;

/// `regs R0 .. R7`
pub fn regs(host: &mut Host, mut fields: Fields) -> Option<Answer> {
    let mut values = [0; 8];
    for value in &mut values {
        *value = fields.word()?;
    }
    fields.end()?;
    host.registers = values;
    host.meddled();
    Some(Answer::ok())
}

/// `set R V`: 1, 18. Acceptance is the Rust's; it has no register of another number to be asked about.
pub fn set(host: &mut Host, mut fields: Fields) -> Option<Answer> {
    let number = fields.word()?;
    let value = fields.word()?;
    fields.end()?;
    if !host.valid() {
        return Some(Answer::own(no(1)));
    }
    let Ok(register) = Register::try_from(number as usize) else {
        return Some(Answer::own(no(18)));
    };
    let memory = host.rust();
    let mut machine = machine_over(host, memory);
    machine.set_register(register, value);
    host.registers = registers(&machine);
    host.empty_journal();
    Some(Answer::ok())
}

/// `step`: 1, then all is the Rust's.
pub fn step(host: &mut Host, fields: Fields) -> Option<Answer> {
    fields.end()?;
    if !host.valid() {
        return Some(Answer::own(no(1)));
    }
    Some(Answer::rust(step_text(advance(host))))
}

/// One step of the Rust from a valid state, recorded where it is accepted. Where it panics or errs, registers and bytes are put
/// back as they were; the error is the answer that this stands for.
pub fn advance(host: &mut Host) -> Result<State, String> {
    let before = host.whole_to_keep();
    let memory = Undoable::over(host.rust());
    let mut machine = machine_over(host, memory.clone());
    let refused = match caught(|| machine.step()) {
        Ok(Ok(state)) => {
            let old = std::mem::replace(&mut host.registers, registers(&machine));
            if state != State::Stop {
                host.record(old, &memory.replaced(), before);
            }
            return Ok(state);
        }
        Ok(Err(error)) => decode_error(&error),
        Err(panic) => panic,
    };
    memory.undo();
    Err(refused)
}

/// The Rust's machine over this memory, with the registers as they are.
fn machine_over<M: Addressable>(host: &Host, memory: M) -> Machine<M> {
    let mut machine = Machine::new_debug(memory, host.debug == 1);
    for (number, value) in host.registers.into_iter().enumerate() {
        machine.set_register(Register::try_from(number).expect("a register of the Rust"), value);
    }
    machine
}

pub fn step_text(stepped: Result<State, String>) -> String {
    match stepped {
        Ok(State::Continue) => "continue".to_string(),
        Ok(State::Debug) => "debug".to_string(),
        Ok(State::Stop) => "stop".to_string(),
        Err(refused) => refused,
    }
}

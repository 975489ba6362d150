//! Words and instructions: the decoder of machine.rs, the encoder and the printer of asm/mod.rs.
use crate::answers::{Answer, hex, no};
use crate::fields::{BYTE, Fields, ROOM, WORD};
use crate::host::Host;
use crate::panics::caught;
use rust16vm::asm::encode_instruction;
use rust16vm::machine::{ArithmeticOp, CompareOp, Instruction, Register};

/// `decode W`
pub fn decode(_: &mut Host, mut fields: Fields) -> Option<Answer> {
    let w = fields.word()?;
    fields.end()?;
    Some(Answer::rust(text_of(w).unwrap_or_else(|refused| refused)))
}

/// `print W ROOM`: the text is the Rust's, into a buffer that it does not have: 19 is the driver's own.
pub fn print(_: &mut Host, mut fields: Fields) -> Option<Answer> {
    let w = fields.word()?;
    let mut buffer = vec![0xEE; fields.number(ROOM)? as usize];
    fields.end()?;
    let text = match text_of(w) {
        Err(refused) => return Some(Answer::rust(refused)),
        Ok(text) => text,
    };
    match buffer.get_mut(..text.len()) {
        None => Some(Answer::own(format!("{} {}", no(19), hex(&buffer)))),
        Some(part) => {
            part.copy_from_slice(text.as_bytes());
            Some(Answer::rust(format!("{} {}", text.len(), hex(&buffer))))
        }
    }
}

/// `encode OP F1 F2 F3 F4`: the word, and the instruction as written.
pub fn encode(_: &mut Host, mut fields: Fields) -> Option<Answer> {
    let op = fields.number(11)?;
    let mut row = Row { fields, left: 4 };
    let instruction = row.instruction(op)?;
    row.end()?;
    let text = match caught(|| (encode_instruction(&instruction), instruction.to_string())) {
        Ok((word, printed)) => format!("{word:04X} {printed}"),
        Err(panic) => panic,
    };
    Some(Answer::rust(text))
}

/// The printed text of a word; the error is the answer that its refusal stands for.
fn text_of(w: u16) -> Result<String, String> {
    match caught(|| Instruction::try_from(w).map(|instruction| instruction.to_string())) {
        Ok(Ok(text)) => Ok(text),
        Ok(Err(error)) => Err(decode_error(&error)),
        Err(panic) => Err(panic),
    }
}

/// The Rust's decoder errs on two things, with a text for each.
pub fn decode_error(error: &str) -> String {
    if error.starts_with("unexpected instruction: ") {
        return no(4);
    }
    if error.starts_with("invalid compare opcode: ") {
        return no(5);
    }
    format!("error {error}")
}

/// The four fields of an instruction, as 01's table has them, with a mode bit before an operand's value.
struct Row<'a> {
    fields: Fields<'a>,
    left: u32,
}

impl Row<'_> {
    fn instruction(&mut self, op: u64) -> Option<Instruction> {
        Some(match op {
            0 => Instruction::Noop,
            1 => {
                let dst = self.register()?;
                let (reg, imm) = self.operand()?;
                Instruction::Mov(dst, reg, imm)
            }
            2 => Instruction::MovShift(self.register()?, self.byte()?, self.bit()?, self.word()?),
            3 => {
                let dst = self.register()?;
                let op = self.one_of(&OPERATORS[..4])?;
                let (reg, imm) = self.operand()?;
                Instruction::Arith(dst, reg, imm, op)
            }
            4 => Instruction::LdrStr(self.register()?, self.register()?, self.bit()?, self.byte()?),
            5 => {
                let (reg, imm) = self.operand()?;
                Instruction::CondJmp(reg, imm)
            }
            6 => {
                let (reg, imm) = self.operand()?;
                Instruction::Jmp(reg, imm)
            }
            7 => {
                let reg = self.register()?;
                let compare = self.one_of(&COMPARES)?;
                let (other, imm) = self.operand()?;
                Instruction::Cmp(reg, other, imm, compare)
            }
            8 => Instruction::LdbStb(self.register()?, self.register()?, self.bit()?, self.byte()?),
            9 => Instruction::Cpy(self.register()?, self.register()?),
            10 => {
                let dst = self.register()?;
                let op = self.one_of(&OPERATORS)?;
                Instruction::ArithRegReg(dst, self.register()?, self.register()?, op)
            }
            11 => Instruction::CallRet(self.bit()?, self.word()?),
            _ => return None,
        })
    }

    fn number(&mut self, most: u64) -> Option<u64> {
        self.left -= 1;
        self.fields.number(most)
    }

    fn register(&mut self) -> Option<Register> {
        Register::try_from(self.number(7)? as usize).ok()
    }

    fn bit(&mut self) -> Option<bool> {
        Some(self.number(1)? == 1)
    }

    fn byte(&mut self) -> Option<u8> {
        Some(self.number(BYTE)? as u8)
    }

    fn word(&mut self) -> Option<u16> {
        Some(self.number(WORD)? as u16)
    }

    /// A register or a number, as the bit before it says.
    fn operand(&mut self) -> Option<(Option<Register>, Option<u16>)> {
        if self.bit()? { Some((Some(self.register()?), None)) } else { Some((None, Some(self.word()?))) }
    }

    fn one_of<T: Copy>(&mut self, known: &[T]) -> Option<T> {
        Some(known[self.number(known.len() as u64 - 1)? as usize])
    }

    /// Unused fields are 0, and nothing follows the fourth.
    fn end(mut self) -> Option<()> {
        while self.left > 0 {
            self.number(0)?;
        }
        self.fields.end()
    }
}

const OPERATORS: [ArithmeticOp; 7] = [
    ArithmeticOp::Add,
    ArithmeticOp::Sub,
    ArithmeticOp::Mul,
    ArithmeticOp::Div,
    ArithmeticOp::Mod,
    ArithmeticOp::Exp,
    ArithmeticOp::Sqrt,
];

const COMPARES: [CompareOp; 6] = [
    CompareOp::Eq,
    CompareOp::NotEq,
    CompareOp::Less,
    CompareOp::LessEq,
    CompareOp::Greater,
    CompareOp::GreaterEq,
];

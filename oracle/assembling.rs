//! Whole texts and single lines by the Rust's asm/mod.rs.
use crate::answers::no;
use crate::panics::caught;
use crate::quiet::quietly;
use crate::walk::{self, Label, MOST_WORDS, Rules, Stopped, UNRESOLVED, Walk};
use rust16vm::asm::{AsmError, encode_instruction, parse_assembly_line, resolve_and_parse_assembly};
use rust16vm::machine::Instruction;
use std::collections::HashMap;

/// An accepted text.
pub struct Program {
    pub instructions: Vec<Instruction>,
    pub labels: Vec<Label>,
    pub open: usize,
}

/// What the Rust makes of a single line; the error is the answer that its refusal stands for.
pub fn line_answer(line: &str, addresses: &HashMap<String, u16>) -> Result<Instruction, String> {
    quietly(|| caught(|| parse_assembly_line(line, addresses)))?.map_err(|error| number_of(&error))
}

/// What the Rust makes of a whole text.
pub fn text_answer(text: &str) -> Result<Vec<Instruction>, String> {
    quietly(|| caught(|| resolve_and_parse_assembly(text)))?.map_err(|error| number_of(&error))
}

fn number_of(error: &AsmError) -> String {
    no(match error {
        AsmError::InvalidRegister => 20,
        AsmError::InvalidOperands => 21,
        AsmError::InvalidInstruction => 22,
        AsmError::InvalidFormat => 23,
        AsmError::InvalidImmediate => 24,
        AsmError::UnresolvedLabel(_) => 25,
    })
}

/// What strict assembly refuses an instruction with: 30 where a field exceeds its width, else 32 where the word does not decode
/// back. What decodes back is the Rust's word, so no form is named for it. A field that exceeds does not: the Rust masks it.
pub fn strict_refusal(instruction: &Instruction) -> Option<u8> {
    let decodes_back = decodes_back(instruction);
    if too_wide(instruction) {
        assert!(!decodes_back, "a field exceeds its width and the Rust decodes it back");
        return Some(30);
    }
    if decodes_back { None } else { Some(32) }
}

/// Whether the Rust decodes what it has encoded to the very same instruction.
fn decodes_back(instruction: &Instruction) -> bool {
    Instruction::try_from(encode_instruction(instruction)).as_ref() == Ok(instruction)
}

/// Whether a field exceeds its width in 01's table.
fn too_wide(instruction: &Instruction) -> bool {
    match *instruction {
        Instruction::Mov(_, _, Some(imm)) => exceeds(imm, 8),
        Instruction::MovShift(_, amount, _, imm) => exceeds(amount.into(), 3) || exceeds(imm, 5),
        Instruction::Arith(_, _, Some(imm), _) => exceeds(imm, 6),
        Instruction::LdrStr(_, _, _, shift) | Instruction::LdbStb(_, _, _, shift) => exceeds(shift.into(), 5),
        Instruction::CondJmp(_, Some(address)) | Instruction::Jmp(_, Some(address)) => exceeds(address, 11),
        Instruction::Cmp(_, _, Some(imm), _) => exceeds(imm, 5),
        Instruction::CallRet(_, address) => exceeds(address, 11),
        _ => false,
    }
}

fn exceeds(value: u16, bits: u32) -> bool {
    value >> bits != 0
}

/// The text of an encoded word.
pub fn decoded(word: u16) -> String {
    Instruction::try_from(word).expect("the Rust does not decode what it has encoded").to_string()
}

/// A text assembled. Where the walk by 01 comes to a refusal that the Rust does not have, that is the answer. All else is the
/// Rust's, and the driver ends if the walk does not come to the same.
pub fn assembled(text: &[u8], rules: &Rules) -> Result<Program, Stopped> {
    let (walk, stopped) = walk::walk(text, rules);
    if let Some(stopped) = stopped.as_ref().filter(|stopped| stopped.own) {
        return Err(Stopped { said: stopped.said.clone(), ..*stopped });
    }
    let text = str::from_utf8(text).expect("26 comes first");
    match text_answer(text) {
        Err(said) => {
            let refused = Stopped { said, line: first_refused(text), own: false };
            assert_eq!(stopped.as_ref(), Some(&refused), "the walk and the Rust refuse otherwise");
            Err(refused)
        }
        Ok(instructions) => {
            assert_eq!(stopped, None, "the walk refuses what the Rust accepts");
            let back = !rules.strict || instructions.iter().all(decodes_back);
            assert!(back, "a word of a text accepted strictly does not decode back");
            Ok(accepted(text, walk, instructions))
        }
    }
}

/// The line that the Rust refuses: the least number of lines that make a text which it refuses.
fn first_refused(text: &str) -> usize {
    let ends: Vec<usize> = text.match_indices('\n').map(|(at, _)| at).chain([text.len()]).collect();
    1 + ends.partition_point(|end| text_answer(&text[..*end]).is_ok())
}

fn accepted(text: &str, walk: Walk, instructions: Vec<Instruction>) -> Program {
    assert_eq!(walk.code.len(), instructions.len(), "the walk finds other instructions than the Rust");
    let open = instructions.iter().zip(&walk.code).filter(|(found, line)| is_open(found, line)).count();
    assert_eq!(open, walk.open(), "the walk leaves another number of references open than the Rust");
    let labels = asked(text, &walk.labels, instructions.len());
    assert_eq!(labels, walk.labels, "the walk has other addresses of labels than the Rust");
    Program { instructions, labels, open }
}

/// What the Rust leaves for an open reference is the instruction that it reads `DBG` as.
fn is_open(found: &Instruction, line: &str) -> bool {
    matches!(found, Instruction::Noop) && line_answer(line, &HashMap::new()).is_err_and(|said| said == UNRESOLVED)
}

/// The labels with the Rust's addresses. It shows its table to nobody, so it is asked by a `CALL` of each name after the text. A
/// name that no `CALL` can have, and a program with no words left for them, keep the walk's.
fn asked(text: &str, labels: &[Label], words: usize) -> Vec<Label> {
    let mut labels = labels.to_vec();
    let mut callable: Vec<&mut Label> = labels.iter_mut().filter(|label| is_callable(name(text, label))).collect();
    if MOST_WORDS < words + callable.len() {
        return labels;
    }
    let calls: String = callable.iter().map(|label| format!("\nCALL {}", name(text, label))).collect();
    let answered =
        text_answer(&format!("{text}{calls}")).expect("the Rust refuses a call after a text that it accepted");
    for (label, call) in callable.iter_mut().zip(&answered[words..]) {
        let Instruction::CallRet(false, address) = call else { panic!("the Rust reads a call as something else") };
        label.address = *address;
    }
    labels
}

fn name<'a>(text: &'a str, label: &Label) -> &'a str {
    &text[label.place..][..label.length]
}

fn is_callable(name: &str) -> bool {
    !name.is_empty() && !name.contains(walk::is_blank) && !name.starts_with('#')
}

//! Text from words, by the words of 02's request 3. The Rust has none; but it prints the lines, reads them, encodes what they say,
//! and assembles the whole text back.
use crate::assembling::{line_answer, text_answer};
use crate::panics::caught;
use rust16vm::asm::encode_instruction;
use rust16vm::machine::Instruction;
use std::collections::{BTreeSet, HashMap};
use std::sync::LazyLock;

/// The text of words, and the addresses that it names by a label.
pub struct Source {
    pub text: String,
    pub labels: BTreeSet<usize>,
}

/// The line of a word by itself, and the address that it jumps to or calls, where that is a number.
struct Line {
    text: String,
    aim: Option<u16>,
}

/// The line of each word; none where the Rust reads no line as that word.
static LINES: LazyLock<Vec<Option<Line>>> = LazyLock::new(|| {
    let mut said = vec![false; 65_536];
    for word in every_line().iter().filter_map(|line| word_of(line)) {
        said[word as usize] = true;
    }
    (0..=65_535).zip(said).map(|(word, said)| line_of(word, said)).collect()
});

/// The text of words, or the index of the first that no line says. The driver ends if the Rust does not assemble it back.
pub fn source(words: &[u16]) -> Result<Source, usize> {
    let line = |(i, word): (usize, &u16)| LINES[*word as usize].as_ref().ok_or(i);
    let lines = words.iter().enumerate().map(line).collect::<Result<Vec<&Line>, usize>>()?;
    let source = written(&lines);
    let back = text_answer(&source.text).expect("the Rust refuses a text from words");
    let back: Vec<u16> = back.iter().map(encode_instruction).collect();
    assert!(back == words, "the Rust assembles a text from words to other words");
    Ok(source)
}

fn written(lines: &[&Line]) -> Source {
    let aims = lines.iter().filter_map(|line| line.aim).map(usize::from);
    let labels: BTreeSet<usize> = aims.filter(|aim| aim % 2 == 0 && *aim < 2 * lines.len()).collect();
    let mut text = String::new();
    for (i, line) in lines.iter().enumerate() {
        if labels.contains(&(2 * i)) {
            text += &format!("{}:\n", name(2 * i));
        }
        text += &match line.aim.map(usize::from).filter(|aim| labels.contains(aim)) {
            Some(aim) => line.text.replace(&format!("#{aim}"), &name(aim)),
            None => line.text.clone(),
        };
        text += "\n";
    }
    Source { text, labels }
}

fn name(address: usize) -> String {
    format!("L{address:04X}")
}

/// What the Rust prints, but for the request's three exceptions. The Rust must read it as that very word. Where it does not, no
/// other line may give the word, else the driver ends.
fn line_of(word: u16, said: bool) -> Option<Line> {
    let decoded = caught(|| Instruction::try_from(word)).ok().and_then(Result::ok);
    let text = decoded.map(|instruction| printed(word, instruction)).filter(|line| word_of(line) == Some(word));
    assert_eq!(text.is_some(), said, "a line gives the word {word}, and not the one that is printed for it");
    text.map(|text| Line { aim: aim_of(&text), text })
}

fn printed(word: u16, instruction: Instruction) -> String {
    match instruction {
        Instruction::Noop => "DBG".to_string(),
        // the parser has the number first, and the printer shows what it is handed
        Instruction::MovShift(register, amount, left, number) => {
            Instruction::MovShift(register, number as u8, left, amount.into()).to_string()
        }
        // the low four bits are those of CJP, which the Rust decodes to JMP
        Instruction::Jmp(register, number) if word % 16 == 5 => Instruction::CondJmp(register, number).to_string(),
        other => other.to_string(),
    }
}

/// The word that the Rust makes of a line; none where it refuses it.
fn word_of(line: &str) -> Option<u16> {
    line_answer(line, &HashMap::new()).ok().as_ref().map(encode_instruction)
}

fn aim_of(line: &str) -> Option<u16> {
    match line_answer(line, &HashMap::new()) {
        Ok(Instruction::Jmp(None, aim) | Instruction::CondJmp(None, aim)) => aim,
        Ok(Instruction::CallRet(false, aim)) => Some(aim),
        _ => None,
    }
}

const REGISTERS: [&str; 8] = ["A", "B", "C", "M", "SP", "PC", "BP", "FLAGS"];

/// Lines of every form, with every register, and with every number up to twice what its field holds: the Rust masks it, so that a
/// number beyond gives no other word.
fn every_line() -> Vec<String> {
    let mut lines = vec!["DBG".to_string(), "RET".to_string()];
    lines.extend(pairs(&["JMP", "CJP", "CALL"], &operands(11), " "));
    lines.extend(to_register(&["MOV"], &operands(8)));
    lines.extend(to_register(&["ADD", "SUB", "MUL", "DIV"], &operands(6)));
    lines.extend(to_register(&["EQ", "NEQ", "LT", "LTE", "GT", "GTE"], &operands(5)));
    lines.extend(to_register(&["CPY"], &operands(0)));
    let two = pairs(&REGISTERS, &REGISTERS, ", ");
    lines.extend(to_register(&["ADDR", "SUBR", "MULR", "DIVR", "MODR", "EXPR", "SQRTR"], &two));
    let access = ["LDR", "STR", "LDB", "STB"];
    lines.extend(to_register(&access, &REGISTERS));
    lines.extend(to_register(&access, &bracketed(&REGISTERS, &numbers(5))));
    lines.extend(to_register(&["MSL", "MSR"], &bracketed(&numbers(5), &numbers(3))));
    lines
}

/// Each of these mnemonics with each register and each of these operands after it.
fn to_register(mnemonics: &[&str], operands: &[impl AsRef<str>]) -> Vec<String> {
    pairs(&pairs(mnemonics, &REGISTERS, " "), operands, ", ")
}

fn pairs(firsts: &[impl AsRef<str>], seconds: &[impl AsRef<str>], between: &str) -> Vec<String> {
    let mut found = vec![];
    for first in firsts {
        found.extend(seconds.iter().map(|second| format!("{}{between}{}", first.as_ref(), second.as_ref())));
    }
    found
}

fn bracketed(firsts: &[impl AsRef<str>], seconds: &[impl AsRef<str>]) -> Vec<String> {
    pairs(firsts, seconds, " ").iter().map(|both| format!("[{both}]")).collect()
}

/// Registers, and numbers.
fn operands(bits: u32) -> Vec<String> {
    REGISTERS.iter().map(|register| register.to_string()).chain(numbers(bits)).collect()
}

fn numbers(bits: u32) -> Vec<String> {
    (0..2 << bits).map(|number| format!("#{number}")).collect()
}

//! A text read line by line, by document 01's words. What a line says is the Rust's word, by `parse_assembly_line`; which lines
//! there are, where a label's name stands, and the refusals that the Rust does not have (26, 27, 28, 29 for room, 30, and 32 of
//! 02's request 2) are the driver's own.
use crate::answers::no;
use crate::assembling::{line_answer, strict_refusal};
use std::collections::HashMap;

/// How a text is assembled.
pub struct Rules {
    pub strict: bool,
    pub words: usize,
    pub labels: usize,
}

/// The most words that a program has: the address after the last must fit sixteen bits.
pub const MOST_WORDS: usize = 32_767;
const MOST_OPEN: usize = 512;

/// What a line answers whose label is not known.
pub const UNRESOLVED: &str = "no 25";

#[derive(Clone, PartialEq, Debug)]
pub struct Label {
    pub place: usize,
    pub length: usize,
    pub address: u16,
}

/// Why a text is refused. `own`: the Rust has no such refusal.
#[derive(PartialEq, Debug)]
pub struct Stopped {
    pub said: String,
    pub line: usize,
    pub own: bool,
}

/// A text as far as it was read.
#[derive(Default)]
pub struct Walk<'a> {
    /// The lines that are instructions.
    pub code: Vec<&'a str>,
    pub labels: Vec<Label>,
    addresses: HashMap<String, u16>,
    /// Open references: the label's name, and the line.
    open: Vec<(&'a str, &'a str)>,
}

/// A trimmed line that is neither empty nor a comment: where it starts in the text, and its number from 1.
struct Line<'a> {
    text: &'a str,
    start: usize,
    number: usize,
}

pub fn walk<'a>(text: &'a [u8], rules: &Rules) -> (Walk<'a>, Option<Stopped>) {
    let mut so_far = Walk::default();
    if let Some(at) = text.iter().position(|byte| 127 < *byte) {
        let line = 1 + text[..at].iter().filter(|byte| **byte == b'\n').count();
        return (so_far, own(26, line));
    }
    let text = str::from_utf8(text).expect("bytes below 128 are a text");
    for line in lines(text) {
        let is_label = line.text.ends_with(':');
        let stopped = if is_label { so_far.label(text, &line, rules) } else { so_far.instruction(&line, rules) };
        if stopped.is_some() {
            return (so_far, stopped);
        }
    }
    (so_far, None)
}

fn own(number: u8, line: usize) -> Option<Stopped> {
    Some(Stopped { said: no(number), line, own: true })
}

fn lines(text: &str) -> impl Iterator<Item = Line<'_>> {
    let mut next = 0;
    text.split('\n').enumerate().filter_map(move |(i, whole)| {
        let trimmed = whole.trim_matches(is_blank);
        let start = next + whole.len() - whole.trim_start_matches(is_blank).len();
        next += whole.len() + 1;
        let skipped = trimmed.is_empty() || trimmed.starts_with(';');
        if skipped { None } else { Some(Line { text: trimmed, start, number: i + 1 }) }
    })
}

pub fn is_blank(c: char) -> bool {
    matches!(c, '\u{9}'..='\u{d}' | ' ')
}

impl<'a> Walk<'a> {
    /// 27, 30, and then the name is defined, a later definition over an earlier one.
    fn label(&mut self, text: &'a str, line: &Line<'a>, rules: &Rules) -> Option<Stopped> {
        let name = line.text.trim_end_matches(':');
        let known = self.labels.iter().position(|label| &text[label.place..][..label.length] == name);
        if known.is_none() && self.labels.len() == rules.labels {
            return own(27, line.number);
        }
        // the Rust counts the address apart; MOST_WORDS keeps it within sixteen bits
        let label = Label { place: line.start, length: name.len(), address: 2 * self.code.len() as u16 };
        self.addresses.insert(name.to_string(), label.address);
        let (patched, open): (Vec<_>, Vec<_>) = self.open.iter().partition(|(wanted, _)| *wanted == name);
        self.open = open;
        if rules.strict && patched.iter().any(|(_, line)| self.is_too_wide(line)) {
            return own(30, line.number);
        }
        match known {
            Some(i) => self.labels[i] = label,
            None => self.labels.push(label),
        }
        None
    }

    /// Whether a reference exceeds its width, its label known. 32 does not come here: a reference that fits decodes back.
    fn is_too_wide(&self, line: &str) -> bool {
        let refusal = line_answer(line, &self.addresses).ok().as_ref().and_then(strict_refusal);
        assert_ne!(refusal, Some(32), "a reference fits and does not decode back");
        refusal == Some(30)
    }

    /// Parsing, 30, 32, 29, 28.
    fn instruction(&mut self, line: &Line<'a>, rules: &Rules) -> Option<Stopped> {
        let read = match line_answer(line.text, &self.addresses) {
            Ok(instruction) => Some(instruction),
            Err(said) if said == UNRESOLVED => None,
            Err(said) => return Some(Stopped { said, line: line.number, own: false }),
        };
        if let Some(number) = read.as_ref().filter(|_| rules.strict).and_then(strict_refusal) {
            return own(number, line.number);
        }
        if self.code.len() == MOST_WORDS {
            return Some(Stopped { said: no(29), line: line.number, own: false });
        }
        if self.code.len() == rules.words {
            return own(29, line.number);
        }
        if read.is_none() {
            if self.open.len() == MOST_OPEN {
                return own(28, line.number);
            }
            // JMP, CJP and CALL have one operand
            let name = line.text.split(is_blank).next_back().unwrap_or("");
            self.open.push((name, line.text));
        }
        self.code.push(line.text);
        None
    }

    pub fn open(&self) -> usize {
        self.open.len()
    }
}

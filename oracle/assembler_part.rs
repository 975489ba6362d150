//! The assembler's part: whole texts, single lines, and the listing.
use crate::answers::{Answer, hex, no};
use crate::assembling::{assembled, decoded, line_answer};
use crate::fields::{COPIES, ENTRIES, Fields, SIZE, TEXT, WORD, WORDS};
use crate::host::Host;
use crate::walk::{Label, MOST_WORDS, Rules, Stopped};
use rust16vm::asm::encode_instruction;
use std::collections::HashMap;

/// `asm plain/strict WORDROOM LABELROOM HEX`
pub fn asm(_: &mut Host, mut fields: Fields) -> Option<Answer> {
    let rules = rules(&mut fields)?;
    let text = fields.text_of(TEXT)?;
    fields.end()?;
    Some(answer(&text, &rules))
}

/// `asmn plain/strict WORDROOM LABELROOM COUNT HEX REST`: so many copies of a text, then the rest.
pub fn asmn(_: &mut Host, mut fields: Fields) -> Option<Answer> {
    let rules = rules(&mut fields)?;
    let count = fields.number(WORDS)? as usize;
    let text = fields.text()?;
    let rest = fields.text()?;
    fields.end()?;
    if COPIES < (count * text.len() + rest.len()) as u64 {
        return None;
    }
    Some(answer(&[text.repeat(count), rest].concat(), &rules))
}

fn rules(fields: &mut Fields) -> Option<Rules> {
    let strict = match fields.field()? {
        b"plain" => false,
        b"strict" => true,
        _ => return None,
    };
    Some(Rules { strict, words: fields.number(WORDS)? as usize, labels: fields.number(ENTRIES)? as usize })
}

fn answer(text: &[u8], rules: &Rules) -> Answer {
    match assembled(text, rules) {
        Err(Stopped { said, line, own }) => {
            let line = shown(format!("{said} line {line}"), vec![], vec![], rules);
            if own { Answer::own(line) } else { Answer::rust(line) }
        }
        Ok(program) => {
            let words: Vec<u16> = program.instructions.iter().map(encode_instruction).collect();
            let counts = format!("ok {} {} {}", words.len(), program.labels.len(), program.open);
            Answer::rust(shown(counts, words, program.labels, rules))
        }
    }
}

/// The answer, then all words and all entries of the buffers, whose unused rest is zeroed.
fn shown(answer: String, mut words: Vec<u16>, mut labels: Vec<Label>, rules: &Rules) -> String {
    words.resize(rules.words, 0);
    labels.resize(rules.labels, Label { place: 0, length: 0, address: 0 });
    let words: Vec<String> = words.iter().map(|word| format!("{word:04X}")).collect();
    let labels: Vec<String> = labels.iter().map(entry_text).collect();
    format!("{answer} | {} | {}", words.join(" "), labels.join(" "))
}

fn entry_text(label: &Label) -> String {
    format!("{},{},{}", label.place, label.length, label.address)
}

/// `line HEXLINE HEXTEXT place,length,address ..`: 26 is the driver's own, all else the Rust's, which is handed the names that the
/// entries have.
pub fn line(_: &mut Host, mut fields: Fields) -> Option<Answer> {
    let line = fields.text_of(TEXT)?;
    let text = fields.text_of(TEXT)?;
    let mut entries = vec![];
    while fields.more() {
        entries.push(entry(&mut fields)?);
    }
    if ENTRIES < entries.len() as u64 {
        return None;
    }
    if !line.is_ascii() {
        return Some(Answer::own(no(26)));
    }
    let line = str::from_utf8(&line).expect("bytes below 128 are a text");
    Some(Answer::rust(match line_answer(line, &addresses(&text, &entries)) {
        Ok(instruction) => format!("{:04X} {}", encode_instruction(&instruction), instruction.to_string()),
        Err(said) => said,
    }))
}

fn entry(fields: &mut Fields) -> Option<(u64, u64, u16)> {
    let mut numbers = Fields::parted(fields.field()?, b',');
    let entry = (numbers.number(SIZE)?, numbers.number(SIZE)?, numbers.number(WORD)? as u16);
    numbers.end()?;
    Some(entry)
}

/// The table for the Rust: an entry that runs past the text names nothing, and of equal names the first counts. A name that is no
/// text of the Rust's can't be in a line, which has no byte over 127.
fn addresses(text: &[u8], entries: &[(u64, u64, u16)]) -> HashMap<String, u16> {
    let mut addresses = HashMap::new();
    for (place, length, address) in entries {
        let Some(name) = text.get(*place as usize..(place + length) as usize) else { continue };
        if let Ok(name) = str::from_utf8(name) {
            addresses.entry(name.to_string()).or_insert(*address);
        }
    }
    addresses
}

/// Bytes of input that the listing program takes, and its room for labels.
const LISTED: usize = 65_536;
const LISTED_LABELS: usize = 1_024;

/// `listing HEX`: the Rust has no such program. Its lines are made from the Rust's words and texts.
pub fn listing(_: &mut Host, mut fields: Fields) -> Option<Answer> {
    let text = fields.text_of(TEXT)?;
    fields.end()?;
    if LISTED < text.len() {
        return Some(Answer::own(hex(b"refused 19 line 0\n")));
    }
    let rules = Rules { strict: true, words: MOST_WORDS, labels: LISTED_LABELS };
    Some(match assembled(&text, &rules) {
        Err(Stopped { said, line, own }) => {
            let line = hex(format!("{} line {line}\n", said.replace("no ", "refused ")).as_bytes());
            if own { Answer::own(line) } else { Answer::rust(line) }
        }
        Ok(program) => {
            let words = program.instructions.iter().map(encode_instruction);
            let mut list: String = words.enumerate().map(|(i, word)| listed(2 * i, word)).collect();
            list += &format!("words {} open {}\n", program.instructions.len(), program.open);
            Answer::rust(hex(list.as_bytes()))
        }
    })
}

fn listed(address: usize, word: u16) -> String {
    format!("{address:04X} {word:04X} {}\n", decoded(word))
}

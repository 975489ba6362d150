//! Text from words: 02's request 3.
use crate::answers::{Answer, hex, no};
use crate::fields::{Fields, ROOM, WORDS};
use crate::host::Host;
use crate::sourcing::source;
use crate::walk::MOST_WORDS;

/// `text ROOM W ..`
pub fn text(_: &mut Host, mut fields: Fields) -> Option<Answer> {
    let room = fields.number(ROOM)?;
    let mut words = vec![];
    while fields.more() {
        words.push(fields.word()?);
    }
    if WORDS < words.len() as u64 {
        return None;
    }
    Some(answer(&words, room))
}

/// `textn COUNT W ROOM`
pub fn textn(_: &mut Host, mut fields: Fields) -> Option<Answer> {
    let count = fields.number(WORDS)?;
    let word = fields.word()?;
    let room = fields.number(ROOM)?;
    fields.end()?;
    Some(answer(&vec![word; count as usize], room))
}

/// 16, 33, 19, then the length and the text. That no line says a word is the Rust's word, and so is a text without labels: each line
/// of it is the Rust's. Where labels stand is the request's own; such a text is assembled back by the Rust all the same.
fn answer(words: &[u16], room: u64) -> Answer {
    let mut buffer = vec![0xEE; room as usize];
    if MOST_WORDS < words.len() {
        return Answer::own(shown(no(16), &buffer));
    }
    let source = match source(words) {
        Err(index) => return Answer::rust(shown(format!("{} {index}", no(33)), &buffer)),
        Ok(source) => source,
    };
    let length = source.text.len();
    match buffer.get_mut(..length) {
        None => return Answer::own(shown(no(19), &buffer)),
        Some(part) => part.copy_from_slice(source.text.as_bytes()),
    }
    let answer = shown(length.to_string(), &buffer);
    if source.labels.is_empty() { Answer::rust(answer) } else { Answer::own(answer) }
}

/// The answer, then the whole buffer.
fn shown(answer: String, buffer: &[u8]) -> String {
    format!("{answer} {}", hex(buffer))
}

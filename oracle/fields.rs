//! The fields of a line, parted by exactly one space: no empty field, none before the first or after the last. The numbers of a
//! field can be parted likewise by commas.

pub struct Fields<'a> {
    /// What is left of the line, without the space before it; `None` after the last field.
    rest: Option<&'a [u8]>,
    by: u8,
}

/// The bounds of the language.
pub const WORD: u64 = 65_535;
pub const BYTE: u64 = 255;
pub const MEMORY: u64 = 65_792;
pub const JOURNAL: u64 = 94_300;
pub const WORDS: u64 = 32_800;
pub const ENTRIES: u64 = 1_100;
pub const TEXT: u64 = 65_600;
pub const COPIES: u64 = 131_200;
pub const ROOM: u64 = 65_600;
pub const SIZE: u64 = 4_294_967_295;

impl<'a> Fields<'a> {
    pub fn of(line: &'a [u8]) -> Fields<'a> {
        Fields::parted(line, b' ')
    }

    pub fn parted(line: &'a [u8], by: u8) -> Fields<'a> {
        Fields { rest: Some(line), by }
    }

    /// The next field; `None` where there is none, or it is empty.
    pub fn field(&mut self) -> Option<&'a [u8]> {
        let rest = self.rest?;
        let field = match rest.iter().position(|&c| c == self.by) {
            Some(at) => {
                self.rest = Some(&rest[at + 1..]);
                &rest[..at]
            }
            None => {
                self.rest = None;
                rest
            }
        };
        if field.is_empty() { None } else { Some(field) }
    }

    pub fn more(&self) -> bool {
        self.rest.is_some()
    }

    /// There is no field left. Every command asks this before it does anything.
    pub fn end(&self) -> Option<()> {
        if self.more() { None } else { Some(()) }
    }

    /// A number: digits alone, any number of leading zeros, at most `most`.
    pub fn number(&mut self, most: u64) -> Option<u64> {
        let mut value: u64 = 0;
        for &digit in self.field()? {
            if !digit.is_ascii_digit() {
                return None;
            }
            value = value * 10 + (digit - b'0') as u64;
            if value > most {
                return None;
            }
        }
        Some(value)
    }

    pub fn word(&mut self) -> Option<u16> {
        self.number(WORD).map(|n| n as u16)
    }

    pub fn byte(&mut self) -> Option<u8> {
        self.number(BYTE).map(|n| n as u8)
    }

    /// A text: lower-case hex pairs, `-` where it is empty.
    pub fn text(&mut self) -> Option<Vec<u8>> {
        let field = self.field()?;
        if field == b"-" {
            return Some(vec![]);
        }
        if field.len() % 2 != 0 {
            return None;
        }
        field.chunks(2).map(|pair| Some(16 * hex_digit(pair[0])? + hex_digit(pair[1])?)).collect()
    }

    /// A text of at most so many bytes.
    pub fn text_of(&mut self, most: u64) -> Option<Vec<u8>> {
        self.text().filter(|text| text.len() as u64 <= most)
    }
}

fn hex_digit(c: u8) -> Option<u8> {
    match c {
        b'0'..=b'9' => Some(c - b'0'),
        b'a'..=b'f' => Some(c - b'a' + 10),
        _ => None,
    }
}

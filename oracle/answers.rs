//! An answer line, and whose word it is.
use std::fmt;

pub struct Answer {
    text: String,
    own: bool,
}

impl Answer {
    /// What the Rust says, or what the language itself fixes (`new`, `poke`, `tables`).
    pub fn rust(text: impl Into<String>) -> Answer {
        Answer { text: text.into(), own: false }
    }

    /// What the driver says by 01's words, where the Rust says nothing.
    pub fn own(text: impl Into<String>) -> Answer {
        Answer { text: text.into(), own: true }
    }

    pub fn ok() -> Answer {
        Answer::rust("ok")
    }

    pub fn bad_line() -> Answer {
        Answer::rust("?")
    }
}

impl fmt::Display for Answer {
    fn fmt(&self, f: &mut fmt::Formatter) -> fmt::Result {
        let mark = if self.own { "~" } else { "" };
        write!(f, "{mark}{}", self.text)
    }
}

/// A refusal, by its number in 01.
pub fn no(number: u8) -> String {
    format!("no {number}")
}

/// A text of the language: lower-case hex pairs, `-` where it is empty.
pub fn hex(bytes: &[u8]) -> String {
    if bytes.is_empty() {
        return "-".to_string();
    }
    let mut text = String::with_capacity(2 * bytes.len());
    for byte in bytes {
        text.push(DIGITS[(byte / 16) as usize] as char);
        text.push(DIGITS[(byte % 16) as usize] as char);
    }
    text
}

const DIGITS: &[u8; 16] = b"0123456789abcdef";

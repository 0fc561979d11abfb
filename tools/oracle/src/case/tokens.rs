//! Tokens: an optional `-` and decimal digits, separated by spaces or newlines.

use std::io::BufRead;

/// The input ended early, or a token is no number or does not fit its field.
#[derive(Debug)]
pub struct BadCase;

pub struct Tokens<R> {
    input: R,
}

impl<R: BufRead> Tokens<R> {
    pub fn new(input: R) -> Self {
        Self { input }
    }

    /// The next token as a number of the field's width.
    pub fn number<T: TryFrom<i128>>(&mut self) -> Result<T, BadCase> {
        let first = self.skip_separators().ok_or(BadCase)?;
        let negative = first == b'-';
        if negative {
            self.input.consume(1);
        }
        let size = self.digits()?;
        T::try_from(if negative { -size } else { size }).map_err(|_| BadCase)
    }

    /// Whether only separators are left.
    pub fn at_end(&mut self) -> bool {
        self.skip_separators().is_none()
    }

    fn digits(&mut self) -> Result<i128, BadCase> {
        let mut size: i128 = 0;
        let mut count = 0;
        while let Some(byte) = self.peek().filter(|byte| !is_separator(*byte)) {
            let digit = byte.checked_sub(b'0').filter(|digit| *digit < 10);
            // No field is wider than 64 bits: past 2^64 the exact size no longer matters.
            size = (size * 10 + i128::from(digit.ok_or(BadCase)?)).min(1 << 65);
            count += 1;
            self.input.consume(1);
        }
        if count == 0 { Err(BadCase) } else { Ok(size) }
    }

    fn skip_separators(&mut self) -> Option<u8> {
        while self.peek().is_some_and(is_separator) {
            self.input.consume(1);
        }
        self.peek()
    }

    /// The next byte. Input that cannot be read counts as ended.
    fn peek(&mut self) -> Option<u8> {
        self.input.fill_buf().ok()?.first().copied()
    }
}

fn is_separator(byte: u8) -> bool {
    byte == b' ' || byte == b'\n'
}

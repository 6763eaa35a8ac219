//! The text of requests and answers (../shared/design/protocol.md).

use std::io::{self, Write};

/// The tokens of an input, one after the other.
pub struct Tokens<'a> {
    rest: &'a [u8],
}

impl<'a> Tokens<'a> {
    pub fn new(input: &'a [u8]) -> Tokens<'a> {
        Tokens { rest: input }
    }

    /// The next token; none at the end of the input.
    pub fn next(&mut self) -> Option<&'a [u8]> {
        loop {
            let start = self.rest.iter().position(|b| !b.is_ascii_whitespace())?;
            let text = &self.rest[start..];
            let comment = text[0] == b'#';
            let ends = |b: &u8| if comment { *b == b'\n' } else { b.is_ascii_whitespace() };
            let end = text.iter().position(ends).unwrap_or(text.len());
            self.rest = &text[end..];
            if !comment {
                return Some(&text[..end]);
            }
        }
    }

    /// The next token as an integer from low to high.
    pub fn int(&mut self, low: i64, high: u64) -> Option<i128> {
        let token = self.next()?;
        let (sign, digits) = if token[0] == b'-' { (-1, &token[1..]) } else { (1, token) };
        if digits.is_empty() || digits.len() > 30 || digits.iter().any(|b| !b.is_ascii_digit()) {
            return None;
        }
        let size = digits.iter().fold(0i128, |x, b| 10 * x + i128::from(b - b'0'));
        let x = sign * size;
        if i128::from(low) <= x && x <= i128::from(high) {
            Some(x)
        } else {
            None
        }
    }

    pub fn u8(&mut self) -> Option<u8> {
        self.int(0, 255).map(|x| x as u8)
    }

    pub fn i32(&mut self) -> Option<i32> {
        self.int(-2147483648, 2147483647).map(|x| x as i32)
    }

    pub fn u32(&mut self) -> Option<u32> {
        self.int(0, 4294967295).map(|x| x as u32)
    }

    pub fn u64(&mut self) -> Option<u64> {
        self.int(0, u64::max_value()).map(|x| x as u64)
    }

    pub fn f64(&mut self) -> Option<f64> {
        self.u64().map(f64::from_bits)
    }

    /// An input slice: its length, then its elements.
    pub fn slice<T, F: Fn(&mut Tokens<'a>) -> Option<T>>(&mut self, element: F) -> Option<Vec<T>> {
        let length = self.u32()?;
        (0..length).map(|_| element(self)).collect()
    }

    /// So many elements.
    pub fn several<T, F: Fn(&mut Tokens<'a>) -> Option<T>>(&mut self, count: usize, element: F) -> Option<Vec<T>> {
        (0..count).map(|_| element(self)).collect()
    }
}

/// An output slice afterwards, as whole numbers; an f64 is its pattern.
pub struct Output {
    elements: Vec<i128>,
}

impl Output {
    fn new(fill: i128, room: usize, written: Vec<i128>) -> Output {
        let mut elements = written;
        elements.resize(room, fill);
        Output { elements: elements }
    }

    pub fn bytes<I: Iterator<Item = u8>>(room: usize, written: I) -> Output {
        Output::new(170, room, written.map(i128::from).collect())
    }

    pub fn integers<I: Iterator<Item = i64>>(room: usize, written: I) -> Output {
        Output::new(77, room, written.map(i128::from).collect())
    }

    pub fn qualities<I: Iterator<Item = f64>>(room: usize, written: I) -> Output {
        let fill = i128::from(77f64.to_bits());
        Output::new(fill, room, written.map(|x| i128::from(x.to_bits())).collect())
    }
}

/// The answer to an accepted request.
pub struct Answer {
    pub fields: String,
    pub outputs: Vec<Output>,
}

impl Answer {
    pub fn new(fields: String, outputs: Vec<Output>) -> Answer {
        Answer { fields: fields, outputs: outputs }
    }

    pub fn write<W: Write>(&self, out: &mut W) -> io::Result<()> {
        writeln!(out, "done{}", self.fields)?;
        for output in &self.outputs {
            for (i, x) in output.elements.iter().enumerate() {
                write!(out, "{}{}", if i > 0 { " " } else { "" }, x)?;
            }
            writeln!(out)?;
        }
        Ok(())
    }
}

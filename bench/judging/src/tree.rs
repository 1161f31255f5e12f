//! Any JSON, read into a tree of maps and strings, as `serde_json`'s `Value` is.

use std::collections::BTreeMap;

/// The most arrays and objects that may stand in one another.
const NESTING: usize = 127;

#[derive(Debug, PartialEq)]
pub enum Value {
    Null,
    Bool(bool),
    Number(Number),
    String(String),
    Array(Vec<Value>),
    Object(BTreeMap<String, Value>),
}

#[derive(Clone, Copy, Debug, PartialEq)]
pub enum Number {
    Unsigned(u64),
    /// Below 0.
    Signed(i64),
    /// With a fraction or an exponent, or too large for the others; -0 too.
    Float(f64),
}

impl Value {
    /// The value of a key of an object.
    pub fn get(&self, key: &str) -> Option<&Value> {
        match self {
            Value::Object(map) => map.get(key),
            _ => None,
        }
    }

    pub fn as_array(&self) -> Option<&[Value]> {
        match self {
            Value::Array(items) => Some(items),
            _ => None,
        }
    }

    pub fn as_str(&self) -> Option<&str> {
        match self {
            Value::String(text) => Some(text),
            _ => None,
        }
    }

    pub fn as_u64(&self) -> Option<u64> {
        match self {
            Value::Number(Number::Unsigned(number)) => Some(*number),
            _ => None,
        }
    }

    pub fn is_null(&self) -> bool {
        matches!(self, Value::Null)
    }
}

/// The value that a text stands for, if it is JSON.
pub fn read(text: &[u8]) -> Option<Value> {
    let mut reader = Reader { text, place: 0 };
    let value = reader.value(NESTING)?;
    reader.skip_blanks();
    (reader.place == text.len()).then_some(value)
}

struct Reader<'a> {
    text: &'a [u8],
    place: usize,
}

impl Reader<'_> {
    fn peek(&self) -> Option<u8> {
        self.text.get(self.place).copied()
    }

    fn next(&mut self) -> Option<u8> {
        let byte = self.peek()?;
        self.place += 1;
        Some(byte)
    }

    /// Goes past a byte, if it is the next.
    fn takes(&mut self, byte: u8) -> bool {
        let is_next = self.peek() == Some(byte);
        self.place += is_next as usize;
        is_next
    }

    fn skip_blanks(&mut self) {
        while let Some(b' ' | b'\n' | b'\t' | b'\r') = self.peek() {
            self.place += 1;
        }
    }

    /// The next value, in which this many arrays and objects may stand in one another.
    fn value(&mut self, nesting: usize) -> Option<Value> {
        self.skip_blanks();
        match self.peek()? {
            b'{' => self.object(nesting.checked_sub(1)?).map(Value::Object),
            b'[' => self.array(nesting.checked_sub(1)?).map(Value::Array),
            b'"' => self.string().map(Value::String),
            b'-' | b'0'..=b'9' => self.number().map(Value::Number),
            b'n' => self.word(b"null", Value::Null),
            b't' => self.word(b"true", Value::Bool(true)),
            b'f' => self.word(b"false", Value::Bool(false)),
            _ => None,
        }
    }

    fn word(&mut self, word: &[u8], value: Value) -> Option<Value> {
        let found = self.text[self.place..].starts_with(word);
        self.place += word.len();
        found.then_some(value)
    }

    fn array(&mut self, nesting: usize) -> Option<Vec<Value>> {
        let mut items = Vec::new();
        self.place += 1;
        self.skip_blanks();
        if self.takes(b']') {
            return Some(items);
        }
        loop {
            items.push(self.value(nesting)?);
            self.skip_blanks();
            match self.next()? {
                b',' => {}
                b']' => return Some(items),
                _ => return None,
            }
        }
    }

    /// Of a key that stands twice the last value counts.
    fn object(&mut self, nesting: usize) -> Option<BTreeMap<String, Value>> {
        let mut map = BTreeMap::new();
        self.place += 1;
        self.skip_blanks();
        if self.takes(b'}') {
            return Some(map);
        }
        loop {
            let (key, value) = self.pair(nesting)?;
            map.insert(key, value);
            self.skip_blanks();
            match self.next()? {
                b',' => self.skip_blanks(),
                b'}' => return Some(map),
                _ => return None,
            }
        }
    }

    fn pair(&mut self, nesting: usize) -> Option<(String, Value)> {
        if self.peek()? != b'"' {
            return None;
        }
        let key = self.string()?;
        self.skip_blanks();
        if !self.takes(b':') {
            return None;
        }
        Some((key, self.value(nesting)?))
    }

    /// The string that begins with the quote here.
    fn string(&mut self) -> Option<String> {
        self.place += 1;
        let mut read = self.plain()?.to_owned();
        loop {
            match self.next()? {
                b'"' => return Some(read),
                b'\\' => read.push(self.escaped()?),
                _ => return None,
            }
            read.push_str(self.plain()?);
        }
    }

    /// What stands before the next quote, backslash or control byte.
    fn plain(&mut self) -> Option<&str> {
        let rest = &self.text[self.place..];
        let ends = |byte: &u8| matches!(byte, b'"' | b'\\' | 0..0x20);
        let len = rest.iter().position(ends)?;
        self.place += len;
        str::from_utf8(&rest[..len]).ok()
    }

    /// The character of the escape after a backslash.
    fn escaped(&mut self) -> Option<char> {
        Some(match self.next()? {
            b'"' => '"',
            b'\\' => '\\',
            b'/' => '/',
            b'b' => '\u{8}',
            b'f' => '\u{c}',
            b'n' => '\n',
            b'r' => '\r',
            b't' => '\t',
            b'u' => return self.unicode(),
            _ => return None,
        })
    }

    /// The character of one unit, or of two surrogates.
    fn unicode(&mut self) -> Option<char> {
        let first = self.unit()?;
        if !(0xD800..0xDC00).contains(&first) {
            return char::from_u32(first);
        }
        if !(self.takes(b'\\') && self.takes(b'u')) {
            return None;
        }
        let second = self
            .unit()?
            .checked_sub(0xDC00)
            .filter(|low| *low < 0x400)?;
        char::from_u32(0x1_0000 + ((first - 0xD800) << 10) + second)
    }

    /// The number of four hexadecimal digits.
    fn unit(&mut self) -> Option<u32> {
        (0..4).try_fold(0, |unit, _| {
            let digit = char::from(self.next()?).to_digit(16)?;
            Some(16 * unit + digit)
        })
    }

    fn number(&mut self) -> Option<Number> {
        let start = self.place;
        let negative = self.takes(b'-');
        let whole = self.whole()?;
        let has_fraction = self.takes(b'.');
        if has_fraction {
            self.digits()?;
        }
        let has_exponent = self.takes(b'e') || self.takes(b'E');
        if has_exponent {
            let _ = self.takes(b'+') || self.takes(b'-');
            self.digits()?;
        }
        let exact = whole.filter(|_| !has_fraction && !has_exponent);
        match exact.and_then(|number| exactly(number, negative)) {
            Some(number) => Some(number),
            None => float(&self.text[start..self.place]),
        }
    }

    /// The digits before a fraction, none of them a 0 in front of others: `Some(None)` past 64 bits.
    fn whole(&mut self) -> Option<Option<u64>> {
        if self.takes(b'0') {
            return match self.peek() {
                Some(b'0'..=b'9') => None,
                _ => Some(Some(0)),
            };
        }
        self.digits()
    }

    /// One digit at least, as a number: `Some(None)` past 64 bits.
    fn digits(&mut self) -> Option<Option<u64>> {
        let mut number = Some(0u64);
        let start = self.place;
        while let Some(digit @ b'0'..=b'9') = self.peek() {
            number = number
                .and_then(|number| number.checked_mul(10))
                .and_then(|number| number.checked_add(u64::from(digit - b'0')));
            self.place += 1;
        }
        (self.place > start).then_some(number)
    }
}

/// A number without a fraction and an exponent, where 64 bits hold it.
fn exactly(number: u64, negative: bool) -> Option<Number> {
    match (negative, number) {
        (false, _) => Some(Number::Unsigned(number)),
        (true, 0) => None,
        (true, _) => 0i64.checked_sub_unsigned(number).map(Number::Signed),
    }
}

/// A number that a float holds nearly; it may not be infinite.
fn float(digits: &[u8]) -> Option<Number> {
    let number: f64 = str::from_utf8(digits).ok()?.parse().ok()?;
    number.is_finite().then_some(Number::Float(number))
}

#[cfg(test)]
mod tests;

//! How a line is read.

use std::collections::BTreeMap;

use super::{Case, Numbers, Outcome};

/// Bytes that have a name.
pub type Names = BTreeMap<String, Vec<u8>>;

/// What a line is.
pub enum Line {
    /// A comment, a definition, or nothing.
    Nothing,
    Case(Case),
    /// It cannot be read.
    Unreadable,
}

/// Reads a line; a definition is added to the names.
pub fn read(line: &str, names: &mut Names) -> Line {
    if line.is_empty() || line.starts_with('#') {
        return Line::Nothing;
    }
    let read = match line.strip_prefix("define ") {
        Some(definition) => defined(definition, names).map(|()| Line::Nothing),
        None => case(line, names).map(Line::Case),
    };
    read.unwrap_or(Line::Unreadable)
}

/// Takes a definition.
fn defined(definition: &str, names: &mut Names) -> Option<()> {
    let mut words = Words(definition);
    let name = words.next()?.to_string();
    words.pass("=")?;
    let bytes = words.bytes(names)?;
    words.end()?;
    names.insert(name, bytes);
    Some(())
}

/// Reads a case.
fn case(line: &str, names: &Names) -> Option<Case> {
    let (title, rest) = line.split_once(" | ")?;
    let mut words = Words(rest);
    let operation = words.next()?.to_string();
    let (given, _) = words.numbers(9);
    let first = words.field(names)?;
    let second = words.field(names)?;
    words.pass("=")?;
    let (numbers, count) = words.numbers(9);
    let buffer = words.field(names)?;
    words.end()?;
    let wanted = Outcome { numbers, buffer };
    (count > 0).then(|| Case { title: title.to_string(), operation, given, first, second, wanted })
}

/// The words of a line that are left.
struct Words<'a>(&'a str);

impl<'a> Words<'a> {
    /// The next word, which stays: up to a blank, or a text with its two marks.
    fn peek(&self) -> Option<&'a str> {
        let text = self.0;
        let end = match text.strip_prefix('"') {
            Some(behind) => behind.find('"')? + 2,
            None => text.find(' ').unwrap_or(text.len()),
        };
        (end > 0).then(|| &text[..end])
    }

    /// Takes the next word.
    fn next(&mut self) -> Option<&'a str> {
        let word = self.peek()?;
        self.0 = self.0[word.len()..].trim_start_matches(' ');
        Some(word)
    }

    /// Takes a word that must stand here.
    fn pass(&mut self, mark: &str) -> Option<()> {
        (self.next()? == mark).then(|| ())
    }

    /// Nothing may be left.
    fn end(&self) -> Option<()> {
        self.0.is_empty().then(|| ())
    }

    /// The numbers from here on, at most so many, and how many there are.
    fn numbers(&mut self, most: usize) -> (Numbers, usize) {
        let (mut numbers, mut count) = (Numbers::default(), 0);
        while let Some(value) = self.peek().and_then(number).filter(|_| count < most) {
            numbers[count] = value;
            count += 1;
            self.next();
        }
        (numbers, count)
    }

    /// A field of bytes, empty if none stands here.
    fn field(&mut self, names: &Names) -> Option<Vec<u8>> {
        if self.peek() != Some("|") {
            return Some(Vec::new());
        }
        self.next();
        self.bytes(names)
    }

    /// Bytes, up to a mark or the end of the line.
    fn bytes(&mut self, names: &Names) -> Option<Vec<u8>> {
        let mut made = Made { bytes: Vec::new(), place: 0 };
        while let Some(word) = self.peek().filter(|word| *word != "|" && *word != "=") {
            self.next();
            match word {
                "entries" | "descriptors" | "bodies" => made.put_all(word, self.numbers(4))?,
                _ => made.put_word(word, names)?,
            }
        }
        Some(made.bytes)
    }
}

/// A number: decimal, or hexadecimal and ending in `h`.
fn number(word: &str) -> Option<u64> {
    match word.strip_suffix('h') {
        Some(digits) => u64::from_str_radix(digits, 16).ok(),
        None => word.parse().ok(),
    }
}

/// What was made of a field so far, and where the next byte goes.
struct Made {
    bytes: Vec<u8>,
    place: usize,
}

impl Made {
    /// Puts bytes at the place, over what is there.
    fn put(&mut self, bytes: &[u8]) {
        let end = self.place + bytes.len();
        self.bytes.resize(end.max(self.bytes.len()), 0);
        self.bytes[self.place..end].copy_from_slice(bytes);
        self.place = end;
    }

    /// Goes to another place, none behind the end.
    fn go_to(&mut self, place: &str) -> Option<()> {
        self.place = number(place).map(|place| place as usize).filter(|place| *place <= self.bytes.len())?;
        Some(())
    }

    /// What a word other than a maker's name puts.
    fn put_word(&mut self, word: &str, names: &Names) -> Option<()> {
        if let Some(bytes) = names.get(word) {
            self.put(bytes);
        } else if let Some(text) = word.strip_prefix('"') {
            self.put(text.strip_suffix('"')?.as_bytes());
        } else if let Some(place) = word.strip_prefix('@') {
            self.go_to(place)?;
        } else if let Some(place) = word.strip_prefix('<') {
            self.go_to(place)?;
            self.bytes.truncate(self.place);
        } else {
            let (digits, times) = word.split_once('*').unwrap_or((word, "1"));
            let byte = u8::from_str_radix(digits, 16).ok().filter(|_| digits.len() == 2)?;
            self.put(&vec![byte; number(times)? as usize]);
        }
        Some(())
    }

    /// What a maker puts for each of its numbers.
    fn put_all(&mut self, maker: &str, (numbers, count): (Numbers, usize)) -> Option<()> {
        let [first, times, value, mut offset, ..] = numbers;
        let value = u16::try_from(value).ok()?;
        for number in first..first + times {
            let number = u16::try_from(number).ok()?;
            let body = vec![number as u8; usize::from(value % 256)];
            if maker != "bodies" {
                self.put(&number.to_be_bytes());
                self.put(&value.to_be_bytes());
            }
            if maker == "entries" {
                self.put(&u32::try_from(offset).ok()?.to_be_bytes());
                offset += u64::from(value % 256);
            } else {
                self.put(&body);
            }
        }
        (count == 4).then(|| ())
    }
}

//! Text to words with their places, so that every message can say where it stands.

use std::fmt;
use std::iter::Peekable;
use std::vec::IntoIter;

/// A place in the text; both numbers count from 1.
#[derive(Debug, Clone, Copy, PartialEq, Eq)]
pub struct Place {
    pub line: usize,
    pub column: usize,
}

impl Place {
    pub fn error(self, what: impl Into<String>) -> Error {
        Error {
            place: self,
            what: what.into(),
        }
    }
}

/// A message about the text.
#[derive(Debug, Clone, PartialEq, Eq)]
pub struct Error {
    pub place: Place,
    pub what: String,
}

impl fmt::Display for Error {
    fn fmt(&self, f: &mut fmt::Formatter) -> fmt::Result {
        let Place { line, column } = self.place;
        write!(f, "line {line}, column {column}: {}", self.what)
    }
}

pub type Parse<T> = Result<T, Error>;

#[derive(Debug, Clone, Copy)]
pub struct Word<'a> {
    pub text: &'a str,
    pub place: Place,
}

impl<'a> Word<'a> {
    /// The message that something else is expected in its place.
    pub fn is_not(self, expected: &str) -> Error {
        self.place.error(match self.text {
            "" => format!("nothing stands here: {expected} is expected"),
            text => format!("`{text}` is not understood: {expected} is expected"),
        })
    }

    /// A decimal number of at most this value; `name` says in messages what it is.
    pub fn number(self, name: &str, most: u32) -> Parse<u32> {
        let Word { text, place } = self;
        if text.is_empty() || !text.bytes().all(|byte| byte.is_ascii_digit()) {
            return Err(self.is_not(&format!("a number ({name})")));
        }
        match text.parse() {
            Ok(number) if number <= most => Ok(number),
            _ => Err(place.error(format!("{name} {text} does not fit: 0 to {most}"))),
        }
    }

    /// The words before and behind the first colon.
    pub fn split(self) -> Option<(Word<'a>, Word<'a>)> {
        let (text, behind) = self.text.split_once(':')?;
        let mut place = self.place;
        place.column += text.chars().count() + 1;
        let second = Word {
            text: behind,
            place,
        };
        Some((Word { text, ..self }, second))
    }
}

/// What is left to read of a line that has words.
#[derive(Debug)]
pub struct Words<'a> {
    words: Vec<Word<'a>>,
    /// How many words were read.
    read: usize,
    /// Behind the last word.
    end: Place,
}

pub type Lines<'a> = Peekable<IntoIter<Words<'a>>>;

/// The lines that have words besides comments. Some editors put a byte order mark before the first.
pub fn lines(text: &str) -> Lines<'_> {
    let text = text.strip_prefix('\u{feff}').unwrap_or(text);
    let all = text.lines().enumerate();
    let lines: Vec<Words> = all
        .filter_map(|(index, line)| words(index + 1, line))
        .collect();
    lines.into_iter().peekable()
}

/// The words of a line, where it has any.
fn words(line: usize, text: &str) -> Option<Words<'_>> {
    let mut rest = text.split('#').next()?;
    let mut place = Place { line, column: 1 };
    let mut words = Vec::new();
    while let Some(skipped) = rest.find(|c: char| !c.is_whitespace()) {
        place.column += rest[..skipped].chars().count();
        rest = &rest[skipped..];
        let size = rest.find(char::is_whitespace).unwrap_or(rest.len());
        let text = &rest[..size];
        words.push(Word { text, place });
        place.column += text.chars().count();
        rest = &rest[size..];
    }
    let any = !words.is_empty();
    any.then_some(Words {
        words,
        read: 0,
        end: place,
    })
}

impl<'a> Words<'a> {
    pub fn peek(&self) -> Option<Word<'a>> {
        self.words.get(self.read).copied()
    }

    /// Whether the next word is one of these.
    pub fn begins_with(&self, names: &[&str]) -> bool {
        self.peek().is_some_and(|word| names.contains(&word.text))
    }

    pub fn take(&mut self, expected: &str) -> Parse<Word<'a>> {
        let Some(word) = self.peek() else {
            let what = format!("the line ends: {expected} is expected");
            return Err(self.end.error(what));
        };
        self.read += 1;
        Ok(word)
    }

    pub fn keyword(&mut self, name: &str) -> Parse<()> {
        let expected = format!("`{name}`");
        let word = self.take(&expected)?;
        if word.text == name {
            Ok(())
        } else {
            Err(word.is_not(&expected))
        }
    }

    /// The next word, where it begins as a number does.
    pub fn next_number(&mut self) -> Option<Word<'a>> {
        let word = self.peek()?;
        let is_number = word.text.starts_with(|c: char| c.is_ascii_digit());
        self.read += usize::from(is_number);
        is_number.then_some(word)
    }

    /// Nothing is left of the line.
    pub fn finish(&self) -> Parse<()> {
        match self.peek() {
            None => Ok(()),
            Some(word) => Err(word.is_not("the end of the line")),
        }
    }
}

/// The input as text.
pub fn text(input: &[u8]) -> Parse<&str> {
    std::str::from_utf8(input).map_err(|error| {
        let before = String::from_utf8_lossy(&input[..error.valid_up_to()]);
        let last = before.rsplit('\n').next().unwrap_or_default();
        let place = Place {
            line: before.matches('\n').count() + 1,
            column: last.chars().count() + 1,
        };
        place.error("the input is not text in UTF-8")
    })
}

//! Fields of bytes to text, with the reason and the place where they are malformed.

use crate::layout::{number_at, Field, Form};

/// Why bytes are malformed, and at which of them, from 0.
#[derive(Debug, Clone, PartialEq, Eq)]
pub struct Malformed {
    pub why: String,
    pub at: usize,
}

pub type Read<T> = Result<T, Malformed>;

pub fn malformed<T>(at: usize, why: impl Into<String>) -> Read<T> {
    Err(Malformed {
        why: why.into(),
        at,
    })
}

/// Bytes, and how many were read.
pub struct Bytes<'a> {
    bytes: &'a [u8],
    pub at: usize,
}

impl<'a> Bytes<'a> {
    pub fn new(bytes: &'a [u8], at: usize) -> Self {
        Bytes { bytes, at }
    }

    pub fn number(&mut self, size: usize) -> Read<u32> {
        let at = self.at;
        if self.bytes.len() < at + size {
            return malformed(self.bytes.len(), "the bytes end within a field");
        }
        self.at += size;
        Ok(number_at(self.bytes, at, size))
    }

    /// A value in its range.
    pub fn value(&mut self, field: &Field) -> Read<u32> {
        let at = self.at;
        let value = self.number(field.size)?;
        if (field.low..=field.high).contains(&value) {
            Ok(value)
        } else {
            malformed(at, out_of_range(field, value))
        }
    }

    /// Adds the fields to a line of text, and gives their values.
    pub fn fields(&mut self, fields: &[Field], text: &mut String) -> Read<Vec<u32>> {
        let mut values = Vec::new();
        for field in fields {
            let value = self.value(field)?;
            if field.is_named {
                *text += &format!(" {}", field.name);
            }
            match field.form {
                Form::Number => *text += &format!(" {value}"),
                Form::Bits => {
                    let set = (0..8 * field.size).filter(|bit| value >> bit & 1 == 1);
                    set.for_each(|bit| *text += &format!(" {bit}"));
                }
            }
            values.push(value);
        }
        Ok(values)
    }

    /// "unused ones zero", up to a place.
    pub fn unused(&mut self, end: usize) -> Read<()> {
        while self.at < end {
            let at = self.at;
            let byte = self.number(1)?;
            if byte != 0 {
                return malformed(at, format!("the unused byte is {byte:02x}, not 00"));
            }
        }
        Ok(())
    }
}

fn out_of_range(field: &Field, value: u32) -> String {
    let Field {
        name, low, high, ..
    } = field;
    match field.form {
        Form::Bits => format!("{name} name none"),
        Form::Number if *high == field.most() => format!("{name} {value} is below {low}"),
        Form::Number => format!("{name} {value} is not in {low} to {high}"),
    }
}

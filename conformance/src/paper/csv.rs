//! RFC 4180 without header, read strictly. A passage in quotation marks is of its grammar.

/// A field: what stands in it, without the quotes around it and with one quote for two.
#[derive(Debug, Clone, PartialEq, Eq)]
pub struct Field {
    pub content: Vec<u8>,
    pub is_escaped: bool,
}

pub type Record = Vec<Field>;

/// A way not to be of the grammar.
#[derive(Debug, Clone, Copy, PartialEq, Eq)]
pub enum Way {
    /// A CR outside of quotes with no LF behind it.
    BareCr,
    /// A LF outside of quotes with no CR before it.
    BareLf,
    /// A quote in a field that doesn't begin with one.
    QuoteWithin,
    /// More of the field behind its closing quote.
    BehindQuote,
    /// A quote that opens a field and none that closes it.
    QuoteNotClosed,
    /// A byte that is no character of the grammar.
    NotText,
}

/// The first line and field, both from 1, that are not of the grammar.
#[derive(Debug, Clone, Copy, PartialEq, Eq)]
pub struct Broken {
    pub line: usize,
    pub field: usize,
    pub way: Way,
}

type Read<T> = Result<T, Broken>;

const COMMA: &[u8] = b",";
const DQUOTE: &[u8] = b"\"";
const CRLF: &[u8] = b"\r\n";

/// What is left to read, and the line and field at hand.
struct Reader<'a> {
    rest: &'a [u8],
    at_line: usize,
    at_field: usize,
}

/// "file = [header CRLF] record *(CRLF record) [CRLF]"; a file without a byte has no record (request
/// A2).
pub fn read(file: &[u8]) -> Read<Vec<Record>> {
    let mut reader = Reader {
        rest: file,
        at_line: 0,
        at_field: 0,
    };
    let mut records = Vec::new();
    while !reader.rest.is_empty() {
        records.push(reader.record()?);
        reader.takes(CRLF);
    }
    Ok(records)
}

/// "TEXTDATA = %x20-21 / %x23-2B / %x2D-7E"
fn is_textdata(byte: u8) -> bool {
    matches!(byte, 0x20..=0x21 | 0x23..=0x2B | 0x2D..=0x7E)
}

impl Reader<'_> {
    /// "record = field *(COMMA field)"
    fn record(&mut self) -> Read<Record> {
        self.at_line += 1;
        self.at_field = 0;
        let mut fields = vec![self.field()?];
        while self.takes(COMMA) {
            fields.push(self.field()?);
        }
        Ok(fields)
    }

    /// "field = (escaped / non-escaped)"
    fn field(&mut self) -> Read<Field> {
        self.at_field += 1;
        let is_escaped = self.takes(DQUOTE);
        let content = match is_escaped {
            true => self.escaped()?,
            false => self.non_escaped(),
        };
        self.require_end(is_escaped)?;
        Ok(Field {
            content,
            is_escaped,
        })
    }

    /// "escaped = DQUOTE *(TEXTDATA / COMMA / CR / LF / 2DQUOTE) DQUOTE", from behind the first quote
    /// on.
    fn escaped(&mut self) -> Read<Vec<u8>> {
        let mut content = Vec::new();
        loop {
            let (byte, size) = match *self.rest {
                [b'"', b'"', ..] => (b'"', 2),
                [b'"', ..] => break,
                [byte @ (b',' | b'\r' | b'\n'), ..] => (byte, 1),
                [byte, ..] if is_textdata(byte) => (byte, 1),
                [_, ..] => return self.broken(Way::NotText),
                [] => return self.broken(Way::QuoteNotClosed),
            };
            content.push(byte);
            self.skip(size);
        }
        self.skip(1);
        Ok(content)
    }

    /// "non-escaped = *TEXTDATA"
    fn non_escaped(&mut self) -> Vec<u8> {
        let text = self.rest.iter().take_while(|byte| is_textdata(**byte));
        let content: Vec<u8> = text.copied().collect();
        self.skip(content.len());
        content
    }

    /// Behind a field: a COMMA, a CRLF or the end of the file.
    fn require_end(&self, is_escaped: bool) -> Read<()> {
        self.broken(match *self.rest {
            [] | [b',', ..] | [b'\r', b'\n', ..] => return Ok(()),
            [b'\r', ..] => Way::BareCr,
            [b'\n', ..] => Way::BareLf,
            _ if is_escaped => Way::BehindQuote,
            [b'"', ..] => Way::QuoteWithin,
            _ => Way::NotText,
        })
    }

    /// Whether the rest begins so; what it begins with is read.
    fn takes(&mut self, front: &[u8]) -> bool {
        let begins = self.rest.starts_with(front);
        if begins {
            self.skip(front.len());
        }
        begins
    }

    fn skip(&mut self, size: usize) {
        self.rest = &self.rest[size..];
    }

    fn broken<T>(&self, way: Way) -> Read<T> {
        Err(Broken {
            line: self.at_line,
            field: self.at_field,
            way,
        })
    }
}

//! Numbers in byte slices. "Integers are little-endian."

/// What a reader gives for bytes outside the ranges of the document.
#[derive(Debug, Clone, Copy, PartialEq, Eq)]
pub struct Malformed;

pub type Read<T> = Result<T, Malformed>;

pub fn require(holds: bool) -> Read<()> {
    if holds {
        Ok(())
    } else {
        Err(Malformed)
    }
}

/// What is left to read of a slice.
#[derive(Debug, Clone)]
pub struct Reader<'a> {
    rest: &'a [u8],
}

impl<'a> Reader<'a> {
    pub fn new(bytes: &'a [u8]) -> Self {
        Reader { rest: bytes }
    }

    pub fn take(&mut self, size: usize) -> Read<&'a [u8]> {
        require(size <= self.rest.len())?;
        let (front, rest) = self.rest.split_at(size);
        self.rest = rest;
        Ok(front)
    }

    fn number(&mut self, size: usize) -> Read<u64> {
        let bytes = self.take(size)?;
        Ok(bytes.iter().rev().fold(0, |n, b| n << 8 | u64::from(*b)))
    }

    pub fn u8(&mut self) -> Read<u8> {
        Ok(self.number(1)? as u8)
    }

    pub fn u16(&mut self) -> Read<u16> {
        Ok(self.number(2)? as u16)
    }

    pub fn u32(&mut self) -> Read<u32> {
        Ok(self.number(4)? as u32)
    }

    /// "seats are below 32"
    pub fn seat(&mut self) -> Read<u8> {
        let seat = self.u8()?;
        require(seat < 32)?;
        Ok(seat)
    }

    pub fn rest(&self) -> &'a [u8] {
        self.rest
    }

    /// Nothing is left: the slice is "exactly one record, checkpoint or image".
    pub fn end(&self) -> Read<()> {
        require(self.rest.is_empty())
    }
}

pub fn all_zero(bytes: &[u8]) -> bool {
    bytes.iter().all(|b| *b == 0)
}

/// "A record is a 2-byte length (of what follows it), a 2-byte kind, a body." Gives kind and body.
pub fn record(bytes: &[u8]) -> Read<(u16, Reader<'_>)> {
    let mut reader = Reader::new(bytes);
    let length = usize::from(reader.u16()?);
    require(length == reader.rest.len())?;
    let kind = reader.u16()?;
    Ok((kind, reader))
}

pub fn push_u16(out: &mut Vec<u8>, number: u16) {
    out.extend(number.to_le_bytes());
}

pub fn push_u32(out: &mut Vec<u8>, number: u32) {
    out.extend(number.to_le_bytes());
}

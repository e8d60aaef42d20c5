//! Records as document 01's programs `take` and `put` read and write them.

pub enum Record<'a> {
    Whole { kind: u16, message: &'a [u8] },
    Cut,
}

/// Walks the records of an input; a cut one is the last.
pub struct Records<'a> {
    rest: &'a [u8],
}

impl<'a> Records<'a> {
    pub fn new(input: &'a [u8]) -> Self {
        Records { rest: input }
    }

    fn whole(&self) -> Option<(u16, &'a [u8], &'a [u8])> {
        let (head, rest) = self.rest.split_at_checked(4)?;
        let length = u16::from_le_bytes([head[0], head[1]]);
        let kind = u16::from_le_bytes([head[2], head[3]]);
        let (message, rest) = rest.split_at_checked(usize::from(length))?;
        Some((kind, message, rest))
    }
}

impl<'a> Iterator for Records<'a> {
    type Item = Record<'a>;

    fn next(&mut self) -> Option<Record<'a>> {
        if self.rest.is_empty() {
            return None;
        }
        let Some((kind, message, rest)) = self.whole() else {
            self.rest = &[];
            return Some(Record::Cut);
        };
        self.rest = rest;
        Some(Record::Whole { kind, message })
    }
}

/// Appends one record.
pub fn push_record(out: &mut Vec<u8>, kind: u16, message: &[u8]) {
    let length = u16::try_from(message.len()).expect("a record's length has 16 bits");
    out.extend(length.to_le_bytes());
    out.extend(kind.to_le_bytes());
    out.extend(message);
}

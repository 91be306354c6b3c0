//! Records: fields of a tag, a length and a content, written and walked. The reader follows the
//! scope's order of tests, and is apart from the writer.

/// A refusal: its number, and the place of the faulty field.
#[derive(Clone, Copy, Debug, PartialEq)]
pub struct No {
    pub number: u64,
    pub place: usize,
}

pub fn no<T>(number: u64, place: usize) -> Result<T, No> {
    Err(No { number, place })
}

/// A tag's content has base + each × n^power bytes.
#[derive(Clone, Copy)]
pub struct Rule {
    pub tag: u8,
    base: usize,
    each: usize,
    power: u32,
    /// Whether the record may lack it.
    optional: bool,
}

const fn fixed(tag: u8, base: usize) -> Rule {
    rule(tag, base, 0, 0)
}

const fn rule(tag: u8, base: usize, each: usize, power: u32) -> Rule {
    Rule {
        tag,
        base,
        each,
        power,
        optional: tag == 0x22,
    }
}

pub const ROW: u8 = 0x04;

pub const JOB: &[Rule] = &[
    fixed(0x01, 2),
    fixed(0x02, 4),
    fixed(0x03, 24),
    rule(ROW, 0, 8, 1),
    rule(0x05, 0, 8, 1),
    fixed(0x06, 6),
    fixed(0x07, 8),
    rule(0x08, 0, 8, 2),
    fixed(0x09, 10),
];

pub const ANSWER: &[Rule] = &[fixed(0x20, 1), fixed(0x21, 2), rule(0x22, 0, 8, 1)];

impl Rule {
    fn bytes(&self, n: usize) -> usize {
        self.base + self.each * n.pow(self.power)
    }
}

/// A field as it is met: the place of its first byte, its tag and its content.
#[derive(Clone, Copy)]
pub struct Met<'a> {
    pub at: usize,
    pub tag: u8,
    pub content: &'a [u8],
}

/// The fields of a record whose tags are known, in order of arrival.
pub struct Walked<'a> {
    rules: &'static [Rule],
    pub fields: Vec<Met<'a>>,
}

impl<'a> Walked<'a> {
    /// Refusals 7 (header), 8, 9 and 7 (content) at each field, then 10.
    pub fn walk(bytes: &'a [u8], rules: &'static [Rule]) -> Result<Self, No> {
        let mut fields: Vec<Met> = Vec::new();
        let mut at = 0;
        while at < bytes.len() {
            let [tag, low, high, rest @ ..] = &bytes[at..] else {
                return no(7, at);
            };
            if !rules.iter().any(|rule| rule.tag == *tag) {
                return no(8, at);
            }
            if *tag != ROW && fields.iter().any(|met| met.tag == *tag) {
                return no(9, at);
            }
            let len = u16::from_le_bytes([*low, *high]) as usize;
            let Some(content) = rest.get(..len) else {
                return no(7, at);
            };
            let tag = *tag;
            fields.push(Met { at, tag, content });
            at += 3 + len;
        }
        let walked = Walked { rules, fields };
        let missing = |rule: &&Rule| !rule.optional && walked.get(rule.tag).is_none();
        match rules.iter().find(missing) {
            Some(_) => no(10, bytes.len()),
            None => Ok(walked),
        }
    }

    /// The first field of the tag.
    pub fn get(&self, tag: u8) -> Option<Met<'a>> {
        self.fields.iter().find(|met| met.tag == tag).copied()
    }

    /// The field of a tag that no record lacks.
    pub fn the(&self, tag: u8) -> Met<'a> {
        self.get(tag).unwrap()
    }

    /// Refusal 2, in record order.
    pub fn lengths(&self, n: usize) -> Result<(), No> {
        for met in &self.fields {
            let rule = self.rules.iter().find(|rule| rule.tag == met.tag);
            if met.content.len() != rule.unwrap().bytes(n) {
                return no(2, met.at);
            }
        }
        Ok(())
    }
}

/// Two bytes at a place of a content.
pub fn short(content: &[u8], at: usize) -> u16 {
    u16::from_le_bytes([content[at], content[at + 1]])
}

pub fn floats(content: &[u8]) -> Vec<f64> {
    let words = content.chunks(8).map(|b| b.try_into().unwrap());
    words.map(f64::from_le_bytes).collect()
}

/// A record to be written, whose fields may stand anywhere and be wrong.
#[derive(Clone, Default)]
pub struct Record {
    pub fields: Vec<Field>,
    /// Bytes after the last field.
    pub tail: Vec<u8>,
}

#[derive(Clone)]
pub struct Field {
    pub tag: u8,
    /// The length it claims.
    pub len: u16,
    pub content: Vec<u8>,
}

impl Field {
    pub fn new(tag: u8, content: Vec<u8>) -> Self {
        let len = content.len() as u16;
        Field { tag, len, content }
    }

    /// Its content has this many bytes, and it says so.
    pub fn resize(&mut self, len: usize) {
        self.content.resize(len, 0);
        self.len = len as u16;
    }
}

impl Record {
    pub fn push(&mut self, tag: u8, content: Vec<u8>) {
        self.fields.push(Field::new(tag, content));
    }

    pub fn bytes(&self) -> Vec<u8> {
        let mut bytes = Vec::new();
        for field in &self.fields {
            bytes.push(field.tag);
            bytes.extend(field.len.to_le_bytes());
            bytes.extend(&field.content);
        }
        bytes.extend(&self.tail);
        bytes
    }

    /// The place in the list of a tag's first field.
    pub fn find(&self, tag: u8) -> Option<usize> {
        self.fields.iter().position(|field| field.tag == tag)
    }
}

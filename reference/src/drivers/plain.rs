//! A record as plain text and back: one field a line, its name and its numbers.
//!
//! Every string of bytes has a text that gives it back: a field that does not fit its name stands as
//! `tag` with its bytes, and what is no whole field as `tail`.

use super::record::{floats, short, Field, Record};
use std::io::{self, ErrorKind, Read, Write};

/// What a content is made of.
#[derive(Clone, Copy)]
enum Layout {
    Byte,
    Shorts,
    Signed,
    Floats,
    ShortAndFloat,
}

use Layout::*;

const NAMES: [(u8, &str, Layout); 12] = [
    (0x01, "n", Shorts),
    (0x02, "bands", Shorts),
    (0x03, "limits", Floats),
    (0x04, "row", Floats),
    (0x05, "point", Floats),
    (0x06, "cursors", Signed),
    (0x07, "kappa", Floats),
    (0x08, "matrix", Floats),
    (0x09, "until", ShortAndFloat),
    (0x20, "outcome", Byte),
    (0x21, "steps", Shorts),
    (0x22, "best", Floats),
];

pub fn to_text(from: &mut impl Read, to: &mut impl Write) -> io::Result<bool> {
    let mut bytes = Vec::new();
    from.read_to_end(&mut bytes)?;
    to.write_all(text_of(&bytes).as_bytes())?;
    to.flush()?;
    Ok(true)
}

pub fn from_text(from: &mut impl Read, to: &mut impl Write) -> io::Result<bool> {
    let mut text = String::new();
    from.read_to_string(&mut text)?;
    to.write_all(&bytes_of(&text)?)?;
    to.flush()?;
    Ok(true)
}

pub fn text_of(bytes: &[u8]) -> String {
    let mut text = String::new();
    let mut rest = bytes;
    while let [tag, low, high, after @ ..] = rest {
        let len = u16::from_le_bytes([*low, *high]) as usize;
        let Some(content) = after.get(..len) else {
            break;
        };
        text += &line(*tag, content);
        rest = &after[len..];
    }
    if !rest.is_empty() {
        text += &format!("tail{}\n", hex(rest));
    }
    text
}

fn line(tag: u8, content: &[u8]) -> String {
    let known = NAMES.iter().find(|known| known.0 == tag);
    let items = known.and_then(|(_, name, layout)| Some((name, items(*layout, content)?)));
    match items {
        Some((name, items)) => format!("{name}{items}\n"),
        None => format!("tag {tag:02X}{}\n", hex(content)),
    }
}

fn hex(bytes: &[u8]) -> String {
    bytes.iter().map(|b| format!(" {b:02X}")).collect()
}

/// The numbers, each after a space, if the content fits.
fn items(layout: Layout, content: &[u8]) -> Option<String> {
    let len = content.len();
    let shorts = || (0..len).step_by(2).map(|at| short(content, at));
    match layout {
        Byte if len == 1 => Some(format!(" {}", content[0])),
        Shorts if len.is_multiple_of(2) => Some(shorts().map(|i| format!(" {i}")).collect()),
        Signed if len.is_multiple_of(2) => {
            Some(shorts().map(|i| format!(" {}", i as i16)).collect())
        }
        Floats if len.is_multiple_of(8) => Some(floats(content).into_iter().map(decimal).collect()),
        ShortAndFloat if len == 10 => {
            let tolerance = floats(&content[2..])[0];
            Some(format!(" {}{}", short(content, 0), decimal(tolerance)))
        }
        _ => None,
    }
}

/// The shortest decimal that reads back, or the bits of a NaN.
fn decimal(x: f64) -> String {
    if x.is_nan() {
        return format!(" 0x{:016X}", x.to_bits());
    }
    let shown = format!("{x:?}");
    format!(" {}", shown.strip_suffix(".0").unwrap_or(&shown))
}

pub fn bytes_of(text: &str) -> io::Result<Vec<u8>> {
    let mut record = Record::default();
    for (at, line) in text.lines().enumerate() {
        let line = line.split('#').next().unwrap();
        let words: Vec<&str> = line.split_whitespace().collect();
        if let [name, items @ ..] = &words[..] {
            read_line(name, items, &mut record).ok_or_else(|| {
                let message = format!("line {}: not a field: {line}", at + 1);
                io::Error::new(ErrorKind::InvalidData, message)
            })?;
        }
    }
    Ok(record.bytes())
}

fn read_line(name: &str, items: &[&str], record: &mut Record) -> Option<()> {
    let hex = |items: &[&str]| -> Option<Vec<u8>> {
        let bytes = items.iter().map(|item| u8::from_str_radix(item, 16).ok());
        bytes.collect()
    };
    let (tag, content) = match (name, items) {
        ("tail", bytes) => {
            record.tail = hex(bytes)?;
            return Some(());
        }
        ("tag", [tag, bytes @ ..]) => (hex(&[tag])?[0], hex(bytes)?),
        _ => {
            let (tag, _, layout) = NAMES.iter().find(|known| known.1 == name)?;
            (*tag, content(*layout, items)?)
        }
    };
    u16::try_from(content.len()).ok()?; // a longer field can't be written
    record.fields.push(Field::new(tag, content));
    Some(())
}

fn content(layout: Layout, items: &[&str]) -> Option<Vec<u8>> {
    let mut content = Vec::new();
    for (at, item) in items.iter().enumerate() {
        match layout {
            Byte => content.push(item.parse().ok()?),
            Signed => content.extend(item.parse::<i16>().ok()?.to_le_bytes()),
            Shorts => content.extend(item.parse::<u16>().ok()?.to_le_bytes()),
            ShortAndFloat if at == 0 => content.extend(item.parse::<u16>().ok()?.to_le_bytes()),
            _ => content.extend(float(item)?.to_le_bytes()),
        }
    }
    Some(content)
}

/// A decimal, or the 64 bits after 0x.
fn float(item: &str) -> Option<f64> {
    match item.strip_prefix("0x") {
        Some(bits) => u64::from_str_radix(bits, 16).ok().map(f64::from_bits),
        None => item.parse().ok(),
    }
}

//! Lines, headers, trees, contents and digests of messages; the system's library finds octets and texts.
use super::{checksum, codecs, sha256, told, total};
use std::borrow::Cow;

mod system {
    unsafe extern "C" {
        pub fn memchr(text: *const u8, octet: i32, length: usize) -> *const u8;
        pub fn memmem(text: *const u8, length: usize, key: *const u8, key_length: usize) -> *const u8;
    }
}

pub fn find_octet(octet: u8, text: &[u8]) -> Option<usize> {
    let found = unsafe { system::memchr(text.as_ptr(), i32::from(octet), text.len()) };
    (!found.is_null()).then(|| found as usize - text.as_ptr() as usize)
}

pub fn find(key: &[u8], text: &[u8]) -> Option<usize> {
    let found = unsafe { system::memmem(text.as_ptr(), text.len(), key.as_ptr(), key.len()) };
    (!found.is_null()).then(|| found as usize - text.as_ptr() as usize)
}

#[derive(Clone, Copy)]
pub struct Line {
    pub start: usize,
    /// Where its break begins.
    pub end: usize,
    pub stop: usize,
}

pub struct Lines<'a> {
    text: &'a [u8],
    place: usize,
}

pub fn lines(text: &[u8]) -> Lines<'_> {
    Lines { text, place: 0 }
}

impl Iterator for Lines<'_> {
    type Item = Line;

    #[inline]
    fn next(&mut self) -> Option<Line> {
        let start = self.place;
        if start == self.text.len() {
            return None;
        }
        let line = match find_octet(b'\n', &self.text[start..]) {
            None => Line { start, end: self.text.len(), stop: self.text.len() },
            Some(length) => {
                let feed = start + length;
                let end = if length > 0 && self.text[feed - 1] == b'\r' { feed - 1 } else { feed };
                Line { start, end, stop: feed + 1 }
            }
        };
        self.place = line.stop;
        Some(line)
    }
}

pub struct Field<'a> {
    pub name: &'a [u8],
    text: &'a [u8],
}

fn is_blank(octet: &u8) -> bool {
    matches!(octet, b' ' | b'\t')
}

fn without_leading_blanks(text: &[u8]) -> &[u8] {
    &text[text.iter().take_while(|octet| is_blank(octet)).count()..]
}

fn without_trailing_blanks(text: &[u8]) -> &[u8] {
    &text[..text.len() - text.iter().rev().take_while(|octet| is_blank(octet)).count()]
}

/// The fields of a header, and where the body begins.
pub fn header(text: &[u8]) -> (Vec<Field<'_>>, usize) {
    let mut fields = Vec::new();
    let mut all = lines(text);
    while let Some(line) = all.next() {
        if line.start == line.end && line.stop > line.end {
            return (fields, line.stop);
        }
        let mut last = line;
        while let Some(b' ' | b'\t') = text.get(last.stop) {
            last = all.next().unwrap();
        }
        let content = &text[line.start..line.end];
        let length = content.iter().take_while(|octet| octet.is_ascii_graphic() && **octet != b':').count();
        let (name, after) = content.split_at(length);
        if let [b':', after @ ..] = without_leading_blanks(after)
            && length > 0
        {
            fields.push(Field { name, text: &text[line.end - after.len()..last.end] });
        }
    }
    (fields, text.len())
}

pub fn value<'a>(field: &Field<'a>) -> Cow<'a, [u8]> {
    let text = field.text;
    match lines(text).next() {
        Some(line) if line.stop < text.len() => {
            let mut value = Vec::with_capacity(text.len());
            for line in lines(text) {
                let content = &text[line.start..line.end];
                value.extend_from_slice(if value.is_empty() { without_leading_blanks(content) } else { content });
            }
            value.truncate(without_trailing_blanks(&value).len());
            Cow::Owned(value)
        }
        Some(line) => Cow::Borrowed(without_trailing_blanks(without_leading_blanks(&text[..line.end]))),
        None => Cow::Borrowed(text),
    }
}

pub fn first_value<'a>(fields: &[Field<'a>], name: &[u8]) -> Option<Cow<'a, [u8]>> {
    fields.iter().find(|field| field.name.eq_ignore_ascii_case(name)).map(value)
}

// A token or a quoted string, and what comes after it and the blanks before it. Comments aren't read: no input here has one.
fn word(text: &[u8]) -> Option<(Cow<'_, [u8]>, &[u8])> {
    let text = without_leading_blanks(text);
    if let [b'"', quoted @ ..] = text {
        let mut word = Vec::new();
        let mut rest = quoted.iter();
        while let Some(octet) = rest.next() {
            match octet {
                b'"' => return Some((Cow::Owned(word), rest.as_slice())),
                b'\\' => word.push(*rest.next()?),
                _ => word.push(*octet),
            }
        }
        return None;
    }
    let is_token = |octet: &&u8| octet.is_ascii_graphic() && !b"()<>@,;:\\\"/[]?=".contains(octet);
    let (word, rest) = text.split_at(text.iter().take_while(is_token).count());
    (!word.is_empty()).then_some((Cow::Borrowed(word), rest))
}

/// What a part of a multipart with this Content-Type ends at, where it is one.
fn boundary(content_type: &[u8]) -> Option<Vec<u8>> {
    let (main, rest) = word(content_type)?;
    let [b'/', rest @ ..] = without_leading_blanks(rest) else { return None };
    let (_, mut rest) = word(rest)?;
    if !main.eq_ignore_ascii_case(b"multipart") {
        // the parameters are gone over, as they have to be readable
        while let [b';', after @ ..] = without_leading_blanks(rest) {
            let (_, after) = word(after)?;
            let [b'=', after @ ..] = without_leading_blanks(after) else { return None };
            rest = word(after)?.1;
        }
        return None;
    }
    while let [b';', after @ ..] = without_leading_blanks(rest) {
        let (name, after) = word(after)?;
        let [b'=', after @ ..] = without_leading_blanks(after) else { return None };
        let (value, after) = word(after)?;
        if name.eq_ignore_ascii_case(b"boundary") {
            let value = without_trailing_blanks(&value);
            return (!value.is_empty()).then(|| value.to_vec());
        }
        rest = after;
    }
    None
}

struct Part {
    depth: usize,
    body: (usize, usize),
    is_base64: bool,
    is_qp: bool,
}

// A multipart that is open: its part, its boundary, and whether its closing line came.
struct Open {
    part: usize,
    boundary: Vec<u8>,
    is_closed: bool,
}

// Which open multipart a line ends a part of, the outermost first, and whether it is its closing line.
fn hit(open: &[Open], line: &[u8]) -> Option<(usize, bool)> {
    let line = without_trailing_blanks(line.strip_prefix(b"--")?);
    let closed = line.strip_suffix(b"--");
    open.iter().enumerate().find_map(|(level, open)| {
        if line == open.boundary {
            Some((level, false))
        } else {
            closed.filter(|closed| *closed == open.boundary).map(|_| (level, true))
        }
    })
}

fn line_at(text: &[u8], start: usize) -> Line {
    let line = lines(&text[start..]).next().unwrap_or(Line { start: 0, end: 0, stop: 0 });
    Line { start: start + line.start, end: start + line.end, stop: start + line.stop }
}

/// The parts of a message without messages in it, in one pass.
fn tree(text: &[u8]) -> Vec<Part> {
    let mut parts = Vec::new();
    let mut open: Vec<Open> = Vec::new();
    let mut start = 0;
    loop {
        // the header, up to its empty line or to a delimiter of a multipart around it
        let mut place = start;
        let mut end = None;
        while place < text.len() {
            let line = line_at(text, place);
            if line.start == line.end && line.stop > line.end {
                place = line.stop;
                break;
            }
            if text[place..].starts_with(b"--") && hit(&open, &text[line.start..line.end]).is_some() {
                end = Some(place);
                break;
            }
            place = line.stop;
        }
        let head = &text[start..without_break(text, start, end.unwrap_or(place), end.is_some())];
        let fields = header(head).0;
        let coding = first_value(&fields, b"Content-Transfer-Encoding");
        let is = |name: &[u8]| coding.as_ref().is_some_and(|value| value.eq_ignore_ascii_case(name));
        let (is_base64, is_qp) = (is(b"base64"), is(b"quoted-printable"));
        let own = first_value(&fields, b"Content-Type").and_then(|value| boundary(&value));
        parts.push(Part { depth: open.len() + 1, body: (start + head.len(), start + head.len()), is_base64, is_qp });
        let part = parts.len() - 1;
        if let (Some(boundary), false) = (own, is_base64 || is_qp) {
            open.push(Open { part, boundary, is_closed: false });
        }
        // the next part begins after the next delimiter line of an open multipart
        let mut line = end.or_else(|| candidate(text, place));
        start = loop {
            let Some(at) = line else {
                close(&mut parts, &mut open, 0, part, text.len());
                return parts;
            };
            let found = line_at(text, at);
            if let Some((level, is_closing)) = hit(&open, &text[found.start..found.end]) {
                let was_closed = open[level].is_closed;
                close(&mut parts, &mut open, level + 1, part, without_break(text, 0, at, true));
                open[level].is_closed |= is_closing;
                if !was_closed && !is_closing {
                    break found.stop;
                }
            }
            line = candidate(text, found.stop);
        };
    }
}

// Where a text that goes up to a delimiter line ends: before the break of its last line.
fn without_break(text: &[u8], from: usize, to: usize, is_cut: bool) -> usize {
    match &text[from..to] {
        [.., b'\r', b'\n'] if is_cut => to - 2,
        [.., b'\n'] if is_cut => to - 1,
        _ => to,
    }
}

// The next line from a line's start on that begins with two dashes.
fn candidate(text: &[u8], from: usize) -> Option<usize> {
    if text[from..].starts_with(b"--") {
        return Some(from);
    }
    find(b"\n--", &text[from..]).map(|place| from + place + 1)
}

// Ends the last part and the multiparts from a level on.
fn close(parts: &mut [Part], open: &mut Vec<Open>, level: usize, last: usize, end: usize) {
    let ends = |part: &mut Part| {
        if part.body.1 <= part.body.0 {
            part.body.1 = end.max(part.body.0);
        }
    };
    if open.last().is_none_or(|open| open.part != last) {
        ends(&mut parts[last]);
    }
    for multipart in open.drain(level..) {
        ends(&mut parts[multipart.part]);
    }
}

fn content<'a>(text: &'a [u8], part: &Part) -> Cow<'a, [u8]> {
    let body = &text[part.body.0..part.body.1];
    if part.is_base64 {
        Cow::Owned(codecs::mime_octets(body))
    } else if part.is_qp {
        Cow::Owned(codecs::qp_octets(body))
    } else {
        Cow::Borrowed(body)
    }
}

/// The contents of all parts.
pub fn all_contents(message: &[u8]) -> Vec<Vec<u8>> {
    tree(message).iter().map(|part| content(message, part).into_owned()).collect()
}

pub fn in_lines(text: &[u8], rounds: u32) -> u64 {
    total(rounds, || lines(text).map(|line| (line.end - line.start) as u64).sum())
}

pub fn fields(text: &[u8], rounds: u32) -> u64 {
    total(rounds, || {
        let (fields, body) = header(text);
        (fields.len() + body) as u64
    })
}

pub fn values(text: &[u8], rounds: u32) -> u64 {
    total(rounds, || {
        let add = |sum: u64, field: &Field| sum.wrapping_add(told(field.name, rounds)).wrapping_add(told(&value(field), rounds));
        header(text).0.iter().fold(0, add)
    })
}

pub fn parts(message: &[u8], rounds: u32) -> u64 {
    total(rounds, || {
        let parts = tree(message);
        let places = |sum: u64, part: &Part| {
            let depth = sum.wrapping_mul(31).wrapping_add(part.depth as u64);
            depth.wrapping_mul(31).wrapping_add((part.body.1 - part.body.0) as u64)
        };
        let told = if rounds == 0 { parts.iter().fold(0, places) } else { 0 };
        told.wrapping_add(parts.len() as u64)
    })
}

pub fn contents(message: &[u8], rounds: u32) -> u64 {
    total(rounds, || {
        let add = |sum: u64, part: &Part| sum.wrapping_add(told(&content(message, part), rounds));
        tree(message).iter().fold(0, add)
    })
}

pub fn digests(message: &[u8], rounds: u32) -> u64 {
    total(rounds, || {
        let add = |sum: u64, part: &Part| sum.wrapping_add(checksum(&sha256::hexadecimal(&content(message, part))));
        tree(message).iter().fold(0, add)
    })
}

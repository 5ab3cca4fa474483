//! Filters written out by hand, on a header that was read before.
use super::mail::{header, value};
use super::matching::{Comparator, contains, matches};
use super::{told, total};
use std::borrow::Cow;

struct Read<'a> {
    name: &'a [u8],
    value: Cow<'a, [u8]>,
}

fn any(fields: &[Read], names: &[&[u8]], test: impl Fn(&[u8]) -> bool) -> bool {
    names.iter().any(|name| fields.iter().any(|field| field.name.eq_ignore_ascii_case(name) && test(&field.value)))
}

const CASEMAP: Comparator = Comparator::Casemap;

fn is_bulk(fields: &[Read]) -> bool {
    any(fields, &[b"Subject"], |value| value.eq_ignore_ascii_case(b"Hello"))
        || any(fields, &[b"Subject"], |value| contains(value, b"invoice", CASEMAP))
        || any(fields, &[b"From", b"Sender"], |value| contains(value, b"@papier.example", CASEMAP))
        || any(fields, &[b"Subject"], |value| matches(value, b"*rechnung*", CASEMAP))
        || any(fields, &[b"List-Id"], |value| matches(value, b"*<daily.*>", CASEMAP))
        || any(fields, &[b"Precedence"], |value| value.eq_ignore_ascii_case(b"bulk"))
}

/// Six tests of a header.
pub fn six_tests(message: &[u8], rounds: u32) -> u64 {
    let fields: Vec<Read> = header(message).0.iter().map(|field| Read { name: field.name, value: value(field) }).collect();
    total(rounds, || {
        let folders: Vec<Vec<u8>> = if is_bulk(std::hint::black_box(&fields)) { vec![b"Lists".to_vec()] } else { Vec::new() };
        folders.iter().fold(0, |sum: u64, folder| sum.wrapping_add(1).wrapping_add(told(folder, rounds)))
    })
}

fn joined(texts: &[&[u8]]) -> Vec<u8> {
    texts.concat()
}

fn quoted(text: &[u8]) -> Vec<u8> {
    let mut all = Vec::with_capacity(text.len());
    for octet in text {
        if matches!(octet, b'*' | b'?' | b'\\') {
            all.push(b'\\');
        }
        all.push(*octet);
    }
    all
}

fn with_first(mut text: Vec<u8>, case: fn(&u8) -> u8) -> Vec<u8> {
    if let Some(first) = text.first_mut() {
        *first = case(first);
    }
    text
}

fn is_about_garden(title: &[u8], offer: &[u8]) -> bool {
    let a = title.to_vec();
    let b = a.to_ascii_lowercase();
    let c = with_first(joined(&[&b, b" issue"]), u8::to_ascii_uppercase);
    let d = joined(&[&a, b", ", &c]);
    let e = quoted(offer);
    let f = d.iter().filter(|octet| !(0x80..0xC0).contains(*octet)).count().to_string().into_bytes();
    let g = d.to_ascii_uppercase();
    let h = joined(&[&g, &b]);
    let i = with_first(h.clone(), u8::to_ascii_lowercase);
    let j = joined(&[&i, b": ", &f, b" of ", &e]);
    a.eq_ignore_ascii_case(b"Garden Post")
        || contains(&b, b"daily", CASEMAP)
        || matches(&c, b"*monthly*", CASEMAP)
        || contains(&d, b"march", CASEMAP)
        || e.eq_ignore_ascii_case(b"50% off")
        || f == b"100"
        || contains(&g, b"invoice", CASEMAP)
        || matches(&h, b"*<*>", CASEMAP)
        || [&i, &h].iter().any(|value| [b"x", b"y"].iter().any(|key| value.eq_ignore_ascii_case(*key)))
        || contains(&j, b"garden", CASEMAP)
}

/// Ten variables and ten tests of them; the mail is discarded where one is true, and kept otherwise.
pub fn ten_of_each(rounds: u32) -> u64 {
    total(rounds, || {
        let (title, offer) = std::hint::black_box((b"Garden Post weekly", b"50% *off*?"));
        if is_about_garden(title, offer) { 0 } else { 1 + told(b"", rounds) }
    })
}

const LONGEST_VALUE: usize = 4_096;

/// A variable of two octets, doubled so often and cut each time, and a mail that is kept.
pub fn doublings(times: usize, rounds: u32) -> u64 {
    total(rounds, || {
        let mut value = std::hint::black_box(b"xy").to_vec();
        for _ in 0..times {
            value = joined(&[&value, &value]);
            value.truncate(LONGEST_VALUE);
        }
        std::hint::black_box(value);
        1 + told(b"", rounds)
    })
}

/// So many texts, each four times the longest value, of which the first that are compared are equal, so that a mail is kept.
pub fn joined_texts(sources: usize, keys: usize, rounds: u32) -> u64 {
    let value = vec![b'x'; LONGEST_VALUE];
    total(rounds, || {
        let value = std::hint::black_box(&value);
        let texts: Vec<Vec<u8>> = (0..sources + keys).map(|_| joined(&[value, value, value, value])).collect();
        let (sources, keys) = texts.split_at(sources);
        let is_true = sources.iter().any(|source| keys.iter().any(|key| source.eq_ignore_ascii_case(key)));
        std::hint::black_box(is_true);
        1 + told(b"", rounds)
    })
}

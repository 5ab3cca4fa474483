//! Octets to texts and back, by tables.
use super::{told, total};

const BASE64: &[u8; 64] = b"ABCDEFGHIJKLMNOPQRSTUVWXYZabcdefghijklmnopqrstuvwxyz0123456789+/";
const BASE32: &[u8; 32] = b"ABCDEFGHIJKLMNOPQRSTUVWXYZ234567";
const BASE32_HEX: &[u8; 32] = b"0123456789ABCDEFGHIJKLMNOPQRSTUV";
const BASE16: &[u8; 16] = b"0123456789ABCDEF";

const NO_SYMBOL: u8 = 0xFF;

const fn values_of(symbols: &[u8]) -> [u8; 256] {
    let mut values = [NO_SYMBOL; 256];
    let mut value = 0;
    while value < symbols.len() {
        values[symbols[value] as usize] = value as u8;
        value += 1;
    }
    values
}

const fn of_either_case(mut values: [u8; 256]) -> [u8; 256] {
    let mut letter = b'A';
    while letter <= b'F' {
        values[(letter + 32) as usize] = values[letter as usize];
        letter += 1;
    }
    values
}

static BASE64_VALUES: [u8; 256] = values_of(BASE64);
static BASE32_VALUES: [u8; 256] = values_of(BASE32);
static BASE32_HEX_VALUES: [u8; 256] = values_of(BASE32_HEX);
static BASE16_VALUES: [u8; 256] = of_either_case(values_of(BASE16));

#[derive(Clone, Copy, PartialEq)]
pub enum Encoding {
    Base64,
    Base64Mime,
    Base32,
    Base32Hex,
    Base16,
    Qp,
}

impl Encoding {
    pub const ALL: [(Encoding, &'static str); 6] = [
        (Encoding::Base64, "base64"),
        (Encoding::Base64Mime, "base64-mime"),
        (Encoding::Base32, "base32"),
        (Encoding::Base32Hex, "base32hex"),
        (Encoding::Base16, "base16"),
        (Encoding::Qp, "qp"),
    ];
}

fn add_base64(text: &mut Vec<u8>, octets: &[u8]) {
    let mut groups = octets.chunks_exact(3);
    for group in &mut groups {
        let bits = u32::from(group[0]) << 16 | u32::from(group[1]) << 8 | u32::from(group[2]);
        text.extend_from_slice(&[
            BASE64[(bits >> 18) as usize],
            BASE64[(bits >> 12 & 63) as usize],
            BASE64[(bits >> 6 & 63) as usize],
            BASE64[(bits & 63) as usize],
        ]);
    }
    match *groups.remainder() {
        [a] => text.extend_from_slice(&[BASE64[(a >> 2) as usize], BASE64[(a << 4 & 63) as usize], b'=', b'=']),
        [a, b] => text.extend_from_slice(&[
            BASE64[(a >> 2) as usize],
            BASE64[(a << 4 & 63 | b >> 4) as usize],
            BASE64[(b << 2 & 63) as usize],
            b'=',
        ]),
        _ => {}
    }
}

fn base32(octets: &[u8], symbols: &[u8; 32]) -> Vec<u8> {
    let mut text = Vec::with_capacity(octets.len().div_ceil(5) * 8);
    for group in octets.chunks(5) {
        let mut padded = [0; 8];
        padded[3..3 + group.len()].copy_from_slice(group);
        let bits = u64::from_be_bytes(padded);
        let mut eight = [b'='; 8];
        for (place, symbol) in eight.iter_mut().take((group.len() * 8).div_ceil(5)).enumerate() {
            *symbol = symbols[(bits >> (35 - 5 * place) & 31) as usize];
        }
        text.extend_from_slice(&eight);
    }
    text
}

fn qp(octets: &[u8]) -> Vec<u8> {
    // how many octets of text one has, and whether all that are left fit into a line is known from the end
    let width = |place: usize| match octets[place] {
        b'=' => 3,
        33..=126 => 1,
        b' ' | b'\t' if place + 1 < octets.len() => 1,
        _ => 3,
    };
    let mut last = octets.len();
    let mut room = 76;
    while last > 0 && width(last - 1) <= room {
        last -= 1;
        room -= width(last);
    }
    let mut text = Vec::with_capacity(octets.len() + octets.len() / 20 + 80);
    let mut used = 0;
    let mut on_last = last == 0;
    for (place, octet) in octets.iter().enumerate() {
        let wide = width(place);
        if !on_last && used + wide > 75 {
            text.extend_from_slice(b"=\r\n");
            used = 0;
            on_last = place >= last;
        }
        used += wide;
        if wide == 1 {
            text.push(*octet);
        } else {
            text.extend_from_slice(&[b'=', BASE16[(octet >> 4) as usize], BASE16[(octet & 15) as usize]]);
        }
    }
    text
}

pub fn text_of(octets: &[u8], encoding: Encoding) -> Vec<u8> {
    match encoding {
        Encoding::Base64 => {
            let mut text = Vec::with_capacity(octets.len().div_ceil(3) * 4);
            add_base64(&mut text, octets);
            text
        }
        Encoding::Base64Mime => {
            let mut text = Vec::with_capacity(octets.len().div_ceil(57) * 78);
            for line in octets.chunks(57) {
                add_base64(&mut text, line);
                text.extend_from_slice(b"\r\n");
            }
            text
        }
        Encoding::Base32 => base32(octets, BASE32),
        Encoding::Base32Hex => base32(octets, BASE32_HEX),
        Encoding::Base16 => {
            let mut text = Vec::with_capacity(octets.len() * 2);
            for octet in octets {
                text.extend_from_slice(&[BASE16[(octet >> 4) as usize], BASE16[(octet & 15) as usize]]);
            }
            text
        }
        Encoding::Qp => qp(octets),
    }
}

fn strict(text: &[u8], width: u32, quantum: usize, values: &[u8; 256]) -> Option<Vec<u8>> {
    if text.len() % quantum != 0 {
        return None;
    }
    let pads = text.iter().rev().take_while(|octet| **octet == b'=').count();
    let symbols = &text[..text.len() - pads];
    let mut octets = Vec::with_capacity(text.len() / quantum * quantum * width as usize / 8);
    let mut groups = symbols.chunks_exact(quantum);
    let whole = quantum * width as usize / 8;
    for group in &mut groups {
        let mut bits: u64 = 0;
        let mut seen = 0;
        for symbol in group {
            let value = values[*symbol as usize];
            seen |= value;
            bits = bits << width | u64::from(value & 63);
        }
        if seen == NO_SYMBOL {
            return None;
        }
        octets.extend_from_slice(&bits.to_be_bytes()[8 - whole..]);
    }
    let rest = groups.remainder();
    let mut bits: u64 = 0;
    for symbol in rest {
        let value = values[*symbol as usize];
        if value == NO_SYMBOL {
            return None;
        }
        bits = bits << width | u64::from(value);
    }
    let left = rest.len() as u32 * width % 8;
    let count = rest.len() * width as usize / 8;
    let pads_are_right = pads == if rest.is_empty() { 0 } else { quantum - rest.len() };
    if !pads_are_right || left >= width || bits & ((1 << left) - 1) != 0 {
        return None;
    }
    octets.extend_from_slice(&(bits >> left).to_be_bytes()[8 - count..]);
    Some(octets)
}

/// What reads past whatever is no symbol.
struct MimeDecoder {
    bits: u32,
    held: u32,
}

impl MimeDecoder {
    fn feed(&mut self, piece: &[u8], octets: &mut Vec<u8>) {
        let mut rest = piece;
        while let Some((symbol, after)) = rest.split_first() {
            // four symbols at once, as nearly always
            if self.held == 0 && rest.len() >= 4 {
                let four = [0, 1, 2, 3].map(|place| BASE64_VALUES[rest[place] as usize]);
                if four.iter().all(|value| *value != NO_SYMBOL) {
                    let bits = four.iter().fold(0u32, |bits, value| bits << 6 | u32::from(*value));
                    octets.extend_from_slice(&bits.to_be_bytes()[1..]);
                    rest = &rest[4..];
                    continue;
                }
            }
            let value = BASE64_VALUES[*symbol as usize];
            rest = after;
            if value != NO_SYMBOL {
                self.bits = self.bits << 6 | u32::from(value);
                self.held += 6;
                if self.held >= 8 {
                    self.held -= 8;
                    octets.push((self.bits >> self.held) as u8);
                }
            }
        }
    }
}

fn mime(text: &[u8], piece: usize) -> Vec<u8> {
    let mut octets = Vec::with_capacity(text.len() / 4 * 3 + 3);
    let mut decoder = MimeDecoder { bits: 0, held: 0 };
    for piece in text.chunks(piece) {
        decoder.feed(piece, &mut octets);
    }
    octets
}

/// The octets of MIME base64, past whatever is no symbol.
pub fn mime_octets(text: &[u8]) -> Vec<u8> {
    mime(text, text.len().max(1))
}

/// The octets of quoted-printable: blanks at a line's end go, and a `=` there with its break.
pub fn qp_octets(text: &[u8]) -> Vec<u8> {
    let mut octets = Vec::with_capacity(text.len());
    for line in super::mail::lines(text) {
        let blanks = |octet: &&u8| matches!(octet, b' ' | b'\t');
        let content = &text[line.start..line.end];
        let content = &content[..content.len() - content.iter().rev().take_while(blanks).count()];
        let (content, line_break) = match content.split_last() {
            Some((b'=', before)) => (before, &[][..]),
            _ => (content, &text[line.end..line.stop]),
        };
        let mut rest = content;
        while let Some(place) = super::mail::find_octet(b'=', rest) {
            octets.extend_from_slice(&rest[..place]);
            let digit = |at: usize| rest.get(at).map_or(NO_SYMBOL, |octet| BASE16_VALUES[*octet as usize]);
            let (high, low) = (digit(place + 1), digit(place + 2));
            if high != NO_SYMBOL && low != NO_SYMBOL {
                octets.push(high << 4 | low);
                rest = &rest[place + 3..];
            } else {
                octets.push(b'=');
                rest = &rest[place + 1..];
            }
        }
        octets.extend_from_slice(rest);
        octets.extend_from_slice(line_break);
    }
    octets
}

fn octets_of(text: &[u8], encoding: Encoding) -> Option<Vec<u8>> {
    match encoding {
        Encoding::Base64 => strict(text, 6, 4, &BASE64_VALUES),
        Encoding::Base64Mime => Some(mime_octets(text)),
        Encoding::Base32 => strict(text, 5, 8, &BASE32_VALUES),
        Encoding::Base32Hex => strict(text, 5, 8, &BASE32_HEX_VALUES),
        Encoding::Base16 => strict(text, 4, 2, &BASE16_VALUES),
        Encoding::Qp => Some(qp_octets(text)),
    }
}

pub fn encode(encoding: Encoding, octets: &[u8], rounds: u32) -> u64 {
    total(rounds, || told(&text_of(octets, encoding), rounds))
}

pub fn decode(encoding: Encoding, text: &[u8], rounds: u32) -> u64 {
    total(rounds, || octets_of(text, encoding).map_or(u64::MAX, |octets| told(&octets, rounds)))
}

pub fn decode_pieces(piece: usize, text: &[u8], rounds: u32) -> u64 {
    total(rounds, || told(&mime(text, piece), rounds))
}

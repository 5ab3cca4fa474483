//! Values and keys, as a programmer would write them without a library.
use super::total;

#[derive(Clone, Copy)]
pub enum Comparator {
    Octet,
    Casemap,
}

impl Comparator {
    pub fn equal(self, a: &[u8], b: &[u8]) -> bool {
        match self {
            Comparator::Octet => a == b,
            Comparator::Casemap => a.eq_ignore_ascii_case(b),
        }
    }

    fn same(self, a: u8, b: u8) -> bool {
        match self {
            Comparator::Octet => a == b,
            Comparator::Casemap => a.eq_ignore_ascii_case(&b),
        }
    }
}

pub fn contains(value: &[u8], key: &[u8], comparator: Comparator) -> bool {
    match comparator {
        Comparator::Octet => super::mail::find(key, value).is_some(),
        Comparator::Casemap if key.len() > 64 => super::mail::find(&key.to_ascii_uppercase(), &value.to_ascii_uppercase()).is_some(),
        Comparator::Casemap => key.is_empty() || value.windows(key.len()).any(|stretch| stretch.eq_ignore_ascii_case(key)),
    }
}

// Up to ten captures, each as (start, end).
struct Captures {
    ranges: [(usize, usize); 10],
    number: usize,
}

impl Captures {
    fn set(&mut self, number: usize, start: usize, end: usize) {
        if number < 10 {
            self.ranges[number] = (start, end.min(start + 4096));
            self.number = self.number.max(number + 1);
        }
    }
}

// The usual loop with one place to go back to, which takes the shortest stretches.
fn captures(value: &[u8], key: &[u8], comparator: Comparator) -> Option<Captures> {
    let mut captures = Captures { ranges: [(0, 0); 10], number: 0 };
    captures.set(0, 0, value.len());
    let (mut v, mut k, mut wildcards) = (0, 0, 0);
    let mut back: Option<(usize, usize, usize, usize)> = None;
    loop {
        if k == key.len() && v == value.len() {
            return Some(captures);
        }
        if k < key.len() && key[k] == b'*' {
            wildcards += 1;
            captures.set(wildcards, v, v);
            back = Some((k + 1, v, v, wildcards));
            k += 1;
            continue;
        }
        if k < key.len() && v < value.len() {
            let (width, fits) = match key[k] {
                b'?' => {
                    wildcards += 1;
                    captures.set(wildcards, v, v + 1);
                    (1, true)
                }
                b'\\' if k + 1 < key.len() => (2, comparator.same(value[v], key[k + 1])),
                octet => (1, comparator.same(value[v], octet)),
            };
            if fits {
                k += width;
                v += 1;
                continue;
            }
        }
        let (after, start, end, number) = back?;
        if end == value.len() {
            return None;
        }
        captures.number = number + 1;
        captures.set(number, start, end + 1);
        back = Some((after, start, end + 1, number));
        (k, v, wildcards) = (after, end + 1, number);
    }
}

pub fn matches(value: &[u8], key: &[u8], comparator: Comparator) -> bool {
    captures(value, key, comparator).is_some()
}

/// By `:is` (0), `:contains` (1) or `:matches` (2).
pub fn found(way: u32, casemap: bool, value: &[u8], key: &[u8], rounds: u32) -> u64 {
    let comparator = if casemap { Comparator::Casemap } else { Comparator::Octet };
    total(rounds, || {
        let (value, key) = (std::hint::black_box(value), std::hint::black_box(key));
        match way {
            0 => u64::from(comparator.equal(value, key)),
            1 => u64::from(contains(value, key, comparator)),
            _ => captures(value, key, comparator).map_or(0, |captures| captures.number as u64),
        }
    })
}

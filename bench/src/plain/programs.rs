//! Programs in their octets: those operations that the inputs have, verified and run.
use super::{mail, told, total};

#[derive(Clone, Copy)]
struct Instruction {
    op: u8,
    a: u8,
    b: u16,
    c: u32,
}

struct Program<'a> {
    numbers: Vec<u64>,
    strings: Vec<&'a [u8]>,
    instructions: Vec<Instruction>,
}

/// The octets of a program of these numbers, strings and instructions (operation, a, b, c).
pub fn octets_of(numbers: &[u64], strings: &[&[u8]], instructions: &[(u8, u8, u16, u32)]) -> Vec<u8> {
    let mut octets = b"SVBC\x01\0\x01".to_vec();
    octets.extend_from_slice(&(numbers.len() as u16).to_be_bytes());
    octets.extend_from_slice(&(strings.len() as u16).to_be_bytes());
    octets.extend_from_slice(&(instructions.len() as u32).to_be_bytes());
    for number in numbers {
        octets.extend_from_slice(&number.to_be_bytes());
    }
    for string in strings {
        octets.extend_from_slice(&(string.len() as u16).to_be_bytes());
        octets.extend_from_slice(string);
    }
    for (op, a, b, c) in instructions {
        octets.extend_from_slice(&[*op, *a]);
        octets.extend_from_slice(&b.to_be_bytes());
        octets.extend_from_slice(&c.to_be_bytes());
    }
    octets
}

fn taken<'a>(octets: &mut &'a [u8], count: usize) -> Option<&'a [u8]> {
    let (first, rest) = octets.split_at_checked(count)?;
    *octets = rest;
    Some(first)
}

fn number(octets: &mut &[u8], count: usize) -> Option<u64> {
    Some(taken(octets, count)?.iter().fold(0, |number, octet| number << 8 | u64::from(*octet)))
}

fn read(mut octets: &[u8]) -> Option<Program<'_>> {
    let octets = &mut octets;
    if taken(octets, 5)? != b"SVBC\x01" || number(octets, 2)? > 128 {
        return None;
    }
    let (numbers, strings, instructions) = (number(octets, 2)?, number(octets, 2)?, number(octets, 4)?);
    let numbers = (0..numbers).map(|_| number(octets, 8)).collect::<Option<_>>()?;
    let mut all = Vec::with_capacity(strings as usize);
    for _ in 0..strings {
        let length = number(octets, 2)? as usize;
        all.push(taken(octets, length).filter(|string| string.len() <= 16_384)?);
    }
    if instructions > 65_536 || octets.len() != instructions as usize * 8 {
        return None;
    }
    let instruction = |eight: &[u8]| Instruction {
        op: eight[0],
        a: eight[1],
        b: u16::from_be_bytes([eight[2], eight[3]]),
        c: u32::from_be_bytes([eight[4], eight[5], eight[6], eight[7]]),
    };
    Some(Program { numbers, strings: all, instructions: octets.chunks_exact(8).map(instruction).collect() })
}

const NO_LOOP: u32 = u32::MAX;

// The innermost open loop at each place, where all are matched and no more than three are open.
fn loops(instructions: &[Instruction]) -> Option<Vec<u32>> {
    let mut inner = Vec::with_capacity(instructions.len());
    let mut open = Vec::new();
    for (place, instruction) in instructions.iter().enumerate() {
        inner.push(open.last().copied().unwrap_or(NO_LOOP));
        match instruction.op {
            0x17 => {
                open.push(place as u32);
                if open.len() > 3 {
                    return None;
                }
            }
            0x18 => {
                let each = open.pop()?;
                if instruction.c != each || instructions[each as usize].c != place as u32 {
                    return None;
                }
            }
            _ => {}
        }
    }
    open.is_empty().then_some(inner)
}

#[derive(Clone, Copy, PartialEq)]
enum Entry {
    Truth,
    Text(u64),
}

// Whether an instruction names what is there, and its fields are in their ranges.
fn is_formed(program: &Program, instruction: &Instruction) -> bool {
    let Instruction { op, a, b, c } = *instruction;
    match op {
        0x01 | 0x08 | 0x13 | 0x14 | 0x15 => a == 0 && b == 0 && c == 0,
        0x02 => a == 0 && b == 0 && (c as usize) < program.strings.len(),
        0x07 => a <= 1 && b == 0 && c == 0,
        0x09 | 0x0A | 0x0B | 0x17 | 0x18 => a == 0 && b == 0 && (c as usize) < program.instructions.len(),
        0x0F => a <= 1 && b == 0 && (c as usize) < program.numbers.len(),
        0x11 => a & 3 <= 2 && a <= 6 && b == 0 && (1..=512).contains(&c),
        _ => false,
    }
}

// What an instruction of the right form costs at most: for a run of it, and for each octet of the message.
fn cap(program: &Program, instruction: &Instruction, stack: &mut Vec<Entry>) -> Option<(u64, u64)> {
    let text = |stack: &mut Vec<Entry>| match stack.pop()? {
        Entry::Text(length) => Some(length),
        Entry::Truth => None,
    };
    let truth = |stack: &mut Vec<Entry>| (stack.pop()? == Entry::Truth).then_some(());
    match instruction.op {
        0x02 => stack.push(Entry::Text(program.strings.get(instruction.c as usize)?.len() as u64)),
        0x07 | 0x0F => stack.push(Entry::Truth),
        0x08 => {
            truth(stack)?;
            stack.push(Entry::Truth);
        }
        0x0A | 0x0B => truth(stack)?,
        0x11 => {
            let mut keys = 0;
            for _ in 0..instruction.c {
                keys += text(stack)? + 1;
            }
            stack.push(Entry::Truth);
            return Some((1, keys));
        }
        0x15 => return Some((1 + text(stack)?, 0)),
        _ => {}
    }
    Some((1, 0))
}

fn verify(octets: &[u8]) -> Option<(Program<'_>, [u64; 4])> {
    let program = read(octets)?;
    let instructions = &program.instructions;
    if instructions.last()?.op != 0x01 {
        return None;
    }
    // Index and Form of all instructions come before Loop, so a broken loop isn't refused before them
    if !instructions.iter().all(|instruction| is_formed(&program, instruction)) {
        return None;
    }
    let inner = loops(instructions)?;
    let mut is_target = vec![false; instructions.len()];
    for (place, instruction) in instructions.iter().enumerate() {
        if let 0x09..=0x0B = instruction.op {
            let target = instruction.c as usize;
            if target <= place || *inner.get(target)? != inner[place] {
                return None;
            }
            is_target[target] = true;
        }
    }
    let mut stack = Vec::new();
    let mut sums = [0u64; 4];
    for (place, instruction) in instructions.iter().enumerate() {
        if is_target[place] && !stack.is_empty() || instruction.op == 0x11 && inner[place] == NO_LOOP {
            return None;
        }
        let (fixed, scaled) = cap(&program, instruction, &mut stack)?;
        if stack.len() > 1024 || matches!(instruction.op, 0x01 | 0x09..=0x0B | 0x17 | 0x18) && !stack.is_empty() {
            return None;
        }
        let mut depth = 0;
        let mut open = inner[place];
        while open != NO_LOOP {
            depth += 1;
            open = inner[open as usize];
        }
        sums[depth] = sums[depth].saturating_add(fixed).saturating_add(scaled);
    }
    Some((program, sums))
}

pub fn verified(octets: &[u8], rounds: u32) -> u64 {
    total(rounds, || u64::from(verify(octets).is_some_and(|(_, sums)| std::hint::black_box(sums)[0] > 0)))
}

struct Frame {
    part: usize,
    last: usize,
}

// How many actions a run has, and what it charges.
fn run(program: &Program, below: &[usize], size: u64, contents: &[Vec<u8>]) -> (u64, u64) {
    let mut frames: Vec<Frame> = Vec::new();
    let mut truths = Vec::new();
    let mut keys = Vec::new();
    let (mut place, mut charged, mut kept, mut implicit_keep) = (0, 0, false, true);
    loop {
        let i = program.instructions[place];
        charged += 1;
        place += 1;
        match i.op {
            0x01 => return (u64::from(implicit_keep || kept), charged),
            0x02 => keys.push(program.strings[i.c as usize]),
            0x07 => truths.push(i.a == 1),
            0x08 => {
                let truth = truths.pop().unwrap();
                truths.push(!truth);
            }
            0x09 => place = i.c as usize,
            0x0A => {
                if truths.pop().unwrap() {
                    place = i.c as usize;
                }
            }
            0x0B => {
                if !truths.pop().unwrap() {
                    place = i.c as usize;
                }
            }
            0x0F => {
                let number = program.numbers[i.c as usize];
                truths.push(if i.a == 0 { number < size } else { size < number });
            }
            0x11 => {
                let content = &contents[frames.last().unwrap().part];
                let first = keys.len() - i.c as usize;
                let widths: u64 = keys[first..].iter().map(|key| key.len() as u64 + 1).sum();
                charged += (content.len() as u64 + 1) * widths;
                truths.push(keys[first..].iter().any(|key| *key == content.as_slice()));
                keys.truncate(first);
            }
            0x13 => {
                kept = true;
                implicit_keep = false;
            }
            0x14 => implicit_keep = false,
            0x17 => {
                let (first, last) = match frames.last() {
                    Some(frame) => (frame.part + 1, frame.part + 1 + below[frame.part]),
                    None => (0, below.len()),
                };
                if first < last {
                    frames.push(Frame { part: first, last: last - 1 });
                } else {
                    place = i.c as usize + 1;
                }
            }
            0x18 => {
                let frame = frames.last_mut().unwrap();
                if frame.part < frame.last {
                    frame.part += 1;
                    place = i.c as usize + 1;
                } else {
                    frames.pop();
                }
            }
            _ => unreachable!(),
        }
    }
}

/// Runs over a message whose parts have so many below each; contents in base64 are decoded anew in each run.
pub fn runs(octets: &[u8], message: &[u8], below: &[usize], rounds: u32) -> u64 {
    let (program, _) = verify(octets).unwrap();
    let asks = program.instructions.iter().any(|instruction| instruction.op == 0x11);
    total(rounds, || {
        let contents = if asks { mail::all_contents(message) } else { Vec::new() };
        let (actions, charged) = run(&program, below, message.len() as u64, &contents);
        actions.wrapping_mul(1 + told(b"", rounds)).wrapping_add(charged)
    })
}

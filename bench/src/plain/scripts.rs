//! Sieve scripts (RFC 5228) up to their code: tokens, trees, the rules of the commands that the inputs have, and the compiler's code.
use super::{told, total};
use std::collections::HashMap;

#[derive(Clone, Copy, PartialEq)]
enum Kind {
    Word,
    Tag,
    Number(u64),
    Quoted,
    MultiLine,
    Sign(u8),
}

#[derive(Clone, Copy)]
struct Token {
    kind: Kind,
    start: usize,
    end: usize,
}

fn identifier_end(script: &[u8], start: usize) -> usize {
    let is_in = |octet: &&u8| octet.is_ascii_alphanumeric() || **octet == b'_';
    start + script[start..].iter().take_while(is_in).count()
}

fn begins_identifier(octet: u8) -> bool {
    octet.is_ascii_alphabetic() || octet == b'_'
}

fn number_at(script: &[u8], start: usize) -> Option<(u64, usize)> {
    let mut end = start;
    let mut number: u64 = 0;
    while let Some(digit @ b'0'..=b'9') = script.get(end) {
        number = number.checked_mul(10)?.checked_add(u64::from(digit - b'0'))?;
        end += 1;
    }
    let shift = match script.get(end).map(u8::to_ascii_uppercase) {
        Some(b'K') => 10,
        Some(b'M') => 20,
        Some(b'G') => 30,
        _ => return Some((number, end)),
    };
    Some((number.checked_mul(1 << shift)?, end + 1))
}

// Where the line of a single dot ends, after `text:` and what may follow it in its line.
fn multi_line_end(script: &[u8], after: usize) -> Option<usize> {
    let rest = &script[after..];
    let blanks = rest.iter().take_while(|octet| matches!(octet, b' ' | b'\t')).count();
    let mut place = after + blanks;
    if script.get(place) == Some(&b'#') {
        place += script[place..].iter().position(|octet| *octet == b'\n')?;
    }
    let line = super::mail::lines(&script[place..]).next()?;
    if line.start != line.end || line.stop == line.end {
        return None;
    }
    place += line.stop;
    super::mail::lines(&script[place..])
        .find(|line| &script[place + line.start..place + line.end] == b"." && line.stop > line.end)
        .map(|line| place + line.stop)
}

fn tokens_of(script: &[u8]) -> Option<Vec<Token>> {
    let mut tokens = Vec::new();
    let mut place = 0;
    while let Some(&octet) = script.get(place) {
        let start = place;
        let kind = match octet {
            b' ' | b'\t' | b'\r' | b'\n' => {
                place += 1;
                continue;
            }
            b'#' => {
                place += super::mail::find_octet(b'\n', &script[place..])? + 1;
                continue;
            }
            b'/' if script[place..].starts_with(b"/*") => {
                place += 2 + super::mail::find(b"*/", &script[place + 2..])? + 2;
                continue;
            }
            b'"' => {
                place += 1;
                loop {
                    match *script.get(place)? {
                        b'"' => break,
                        b'\\' => place += 2,
                        _ => place += 1,
                    }
                }
                place += 1;
                Kind::Quoted
            }
            b'0'..=b'9' => {
                let (number, end) = number_at(script, place)?;
                place = end;
                Kind::Number(number)
            }
            b':' if begins_identifier(*script.get(place + 1)?) => {
                place = identifier_end(script, place + 1);
                Kind::Tag
            }
            b'{' | b'}' | b'[' | b']' | b'(' | b')' | b';' | b',' => {
                place += 1;
                Kind::Sign(octet)
            }
            octet if begins_identifier(octet) => {
                place = identifier_end(script, place);
                if script[start..place].eq_ignore_ascii_case(b"text") && script.get(place) == Some(&b':') {
                    place = multi_line_end(script, place + 1)?;
                    Kind::MultiLine
                } else {
                    Kind::Word
                }
            }
            _ => return None,
        };
        tokens.push(Token { kind, start, end: place });
    }
    Some(tokens)
}

enum Argument {
    Tag(Vec<u8>),
    Number(u64),
    One(Vec<u8>),
    List(Vec<Vec<u8>>),
}

impl Argument {
    fn strings(&self) -> &[Vec<u8>] {
        match self {
            Argument::One(string) => std::slice::from_ref(string),
            Argument::List(strings) => strings,
            _ => &[],
        }
    }
}

struct Node {
    name: Vec<u8>,
    arguments: Vec<Argument>,
    tests: Vec<Node>,
    block: Option<Vec<Node>>,
}

struct Parser<'a> {
    script: &'a [u8],
    tokens: &'a [Token],
    place: usize,
}

impl Parser<'_> {
    fn peek(&self) -> Option<Kind> {
        self.tokens.get(self.place).map(|token| token.kind)
    }

    fn take(&mut self, kind: Kind) -> Option<()> {
        (self.peek() == Some(kind)).then(|| self.place += 1)
    }

    fn text(&self) -> &[u8] {
        let token = self.tokens[self.place];
        &self.script[token.start..token.end]
    }

    fn string(&mut self) -> Option<Vec<u8>> {
        let text = self.text();
        let string = match self.peek()? {
            Kind::Quoted => {
                let mut string = Vec::with_capacity(text.len());
                let mut octets = text[1..text.len() - 1].iter();
                while let Some(octet) = octets.next() {
                    string.push(if *octet == b'\\' { *octets.next()? } else { *octet });
                }
                string
            }
            Kind::MultiLine => {
                let body = super::mail::lines(text).skip(1);
                let undotted = body.flat_map(|line| {
                    let line = &text[line.start..line.stop];
                    line.strip_prefix(b".").unwrap_or(line)
                });
                let mut string: Vec<u8> = undotted.copied().collect();
                let last = string.iter().rev().take_while(|octet| matches!(octet, b'\r' | b'\n')).count().min(2);
                string.truncate(string.len() - last);
                string
            }
            _ => return None,
        };
        self.place += 1;
        Some(string)
    }

    fn argument(&mut self) -> Option<Argument> {
        match self.peek()? {
            Kind::Tag => {
                let tag = self.text()[1..].to_ascii_lowercase();
                self.place += 1;
                Some(Argument::Tag(tag))
            }
            Kind::Number(number) => {
                self.place += 1;
                Some(Argument::Number(number))
            }
            Kind::Sign(b'[') => {
                self.place += 1;
                let mut strings = vec![self.string()?];
                while self.take(Kind::Sign(b',')).is_some() {
                    strings.push(self.string()?);
                }
                self.take(Kind::Sign(b']'))?;
                Some(Argument::List(strings))
            }
            _ => self.string().map(Argument::One),
        }
    }

    fn node(&mut self) -> Option<Node> {
        if self.peek() != Some(Kind::Word) {
            return None;
        }
        let name = self.text().to_ascii_lowercase();
        self.place += 1;
        let mut node = Node { name, arguments: Vec::new(), tests: Vec::new(), block: None };
        while matches!(self.peek(), Some(Kind::Tag | Kind::Number(_) | Kind::Quoted | Kind::MultiLine | Kind::Sign(b'['))) {
            node.arguments.push(self.argument()?);
        }
        if self.peek() == Some(Kind::Word) {
            node.tests.push(self.node()?);
        } else if self.take(Kind::Sign(b'(')).is_some() {
            node.tests.push(self.node()?);
            while self.take(Kind::Sign(b',')).is_some() {
                node.tests.push(self.node()?);
            }
            self.take(Kind::Sign(b')'))?;
        }
        Some(node)
    }

    fn commands(&mut self) -> Option<Vec<Node>> {
        let mut commands = Vec::new();
        while self.peek() == Some(Kind::Word) {
            let mut command = self.node()?;
            if self.take(Kind::Sign(b'{')).is_some() {
                command.block = Some(self.commands()?);
                self.take(Kind::Sign(b'}'))?;
            } else {
                self.take(Kind::Sign(b';'))?;
            }
            commands.push(command);
        }
        Some(commands)
    }
}

fn parse(script: &[u8]) -> Option<Vec<Node>> {
    let tokens = tokens_of(script)?;
    let mut parser = Parser { script, tokens: &tokens, place: 0 };
    let commands = parser.commands()?;
    (parser.place == tokens.len()).then_some(commands)
}

// What a test's or a command's arguments say.
#[derive(Default)]
struct Reading<'a> {
    kind: Option<u8>,
    is_octet: Option<bool>,
    order: Option<u8>,
    modifiers: u32,
    number: Option<u64>,
    positional: Vec<&'a [Vec<u8>]>,
    has_list: bool,
}

fn read<'a>(arguments: &'a [Argument]) -> Option<Reading<'a>> {
    let mut reading = Reading::default();
    let mut rest = arguments.iter();
    while let Some(argument) = rest.next() {
        match argument {
            Argument::Tag(tag) => {
                let is_first = match tag.as_slice() {
                    b"is" => reading.kind.replace(0).is_none(),
                    b"contains" => reading.kind.replace(1).is_none(),
                    b"matches" => reading.kind.replace(2).is_none(),
                    b"over" => reading.order.replace(0).is_none(),
                    b"under" => reading.order.replace(1).is_none(),
                    b"comparator" => match rest.next()? {
                        Argument::One(name) if name == b"i;octet" => reading.is_octet.replace(true).is_none(),
                        Argument::One(name) if name == b"i;ascii-casemap" => reading.is_octet.replace(false).is_none(),
                        _ => false,
                    },
                    b"lower" | b"upper" | b"lowerfirst" | b"upperfirst" | b"quotewildcard" | b"length" => {
                        reading.modifiers += 1;
                        true
                    }
                    _ => false,
                };
                if !is_first || !reading.positional.is_empty() {
                    return None;
                }
            }
            Argument::Number(number) => {
                if reading.number.replace(*number).is_some() {
                    return None;
                }
            }
            strings => {
                reading.has_list |= matches!(strings, Argument::List(_));
                reading.positional.push(strings.strings());
            }
        }
    }
    Some(reading)
}

#[derive(Default, Clone)]
struct Capabilities {
    fileinto: bool,
    variables: bool,
}

const MOST_STRINGS: usize = 512;

impl Capabilities {
    fn require(&mut self, arguments: &[Argument]) -> Option<()> {
        let [names] = arguments else { return None };
        for name in names.strings() {
            match name.as_slice() {
                b"fileinto" => self.fileinto = true,
                b"variables" => self.variables = true,
                b"mime" | b"foreverypart" | b"vnd.depot" | b"comparator-i;octet" | b"comparator-i;ascii-casemap" => {}
                _ => return None,
            }
        }
        Some(())
    }

    fn test_is_right(&self, test: &Node) -> Option<()> {
        let reading = read(&test.arguments)?;
        let children = match test.name.as_slice() {
            b"true" | b"false" => test.arguments.is_empty() && test.tests.is_empty(),
            b"not" => test.arguments.is_empty() && test.tests.len() == 1,
            b"allof" | b"anyof" => test.arguments.is_empty() && !test.tests.is_empty(),
            b"size" => reading.order.is_some() && reading.number.is_some() && reading.positional.is_empty(),
            b"header" => reading.positional.len() == 2 && reading.order.is_none() && reading.number.is_none(),
            b"exists" => reading.positional.len() == 1 && reading.kind.is_none(),
            b"string" => self.variables && reading.positional.len() == 2,
            _ => false,
        };
        let fits = reading.positional.iter().all(|strings| strings.len() <= MOST_STRINGS);
        (children && fits).then_some(())?;
        test.tests.iter().try_for_each(|test| self.test_is_right(test))
    }

    fn commands_are_right(&mut self, commands: &[Node], is_top: bool) -> Option<()> {
        let mut may_require = is_top;
        let mut after_branch = false;
        for command in commands {
            let name = command.name.as_slice();
            let is_bare = command.tests.is_empty() && command.block.is_none();
            let reading = read(&command.arguments)?;
            let is_right = match name {
                b"require" => may_require && is_bare,
                b"keep" | b"discard" | b"stop" => command.arguments.is_empty() && is_bare,
                b"fileinto" => self.fileinto && is_bare && reading.positional.len() == 1 && !reading.has_list,
                b"set" => self.variables && is_bare && reading.positional.len() == 2 && !reading.has_list,
                b"if" => command.arguments.is_empty() && command.tests.len() == 1 && command.block.is_some(),
                b"elsif" => after_branch && command.arguments.is_empty() && command.tests.len() == 1 && command.block.is_some(),
                b"else" => after_branch && command.arguments.is_empty() && command.tests.is_empty() && command.block.is_some(),
                _ => false,
            };
            is_right.then_some(())?;
            if name == b"require" {
                self.require(&command.arguments)?;
            } else {
                may_require = false;
            }
            after_branch = matches!(name, b"if" | b"elsif");
            command.tests.iter().try_for_each(|test| self.test_is_right(test))?;
            if let Some(block) = &command.block {
                self.commands_are_right(block, false)?;
            }
        }
        Some(())
    }
}

fn check(script: &[u8]) -> Option<Vec<Node>> {
    let commands = parse(script)?;
    Capabilities::default().commands_are_right(&commands, true)?;
    Some(commands)
}

#[derive(Default)]
struct Code<'a> {
    numbers: Vec<u64>,
    number_places: HashMap<u64, u32>,
    strings: Vec<&'a [u8]>,
    string_places: HashMap<&'a [u8], u32>,
    instructions: Vec<(u8, u8, u16, u32)>,
}

impl<'a> Code<'a> {
    fn here(&self) -> usize {
        self.instructions.len()
    }

    fn put(&mut self, op: u8, a: u8, b: u16, c: u32) -> usize {
        self.instructions.push((op, a, b, c));
        self.here() - 1
    }

    fn land(&mut self, jumps: Vec<usize>) {
        let here = self.here() as u32;
        for jump in jumps {
            self.instructions[jump].3 = here;
        }
    }

    fn string(&mut self, string: &'a [u8]) {
        let next = self.strings.len() as u32;
        let place = *self.string_places.entry(string).or_insert(next);
        if place == next {
            self.strings.push(string);
        }
        self.put(0x02, 0, 0, place);
    }

    fn list(&mut self, strings: &'a [Vec<u8>]) {
        for string in strings {
            self.string(string);
        }
    }

    fn simple(&mut self, test: &'a Node) -> Option<()> {
        let reading = read(&test.arguments)?;
        let matching = reading.kind.unwrap_or(0) + if reading.is_octet == Some(true) { 4 } else { 0 };
        match test.name.as_slice() {
            b"true" => self.put(0x07, 1, 0, 0),
            b"false" => self.put(0x07, 0, 0, 0),
            b"size" => {
                let number = reading.number?;
                let next = self.numbers.len() as u32;
                let place = *self.number_places.entry(number).or_insert(next);
                if place == next {
                    self.numbers.push(number);
                }
                self.put(0x0F, reading.order?, 0, place)
            }
            b"exists" => {
                self.list(reading.positional[0]);
                self.put(0x0D, 0, reading.positional[0].len() as u16, 0)
            }
            b"header" => {
                let (names, keys) = (reading.positional[0], reading.positional[1]);
                self.list(names);
                self.list(keys);
                self.put(0x0C, matching, names.len() as u16, keys.len() as u32)
            }
            _ => return None,
        };
        Some(())
    }

    // The jumps that are taken where the test is not what is wanted.
    fn unless(&mut self, test: &'a Node, wanted: bool) -> Option<Vec<usize>> {
        let goes_through = |name: &[u8]| if wanted { name == b"allof" } else { name == b"anyof" };
        match test.name.as_slice() {
            b"not" => self.unless(&test.tests[0], !wanted),
            name @ (b"allof" | b"anyof") => {
                let (last, before) = test.tests.split_last()?;
                let mut jumps = Vec::new();
                if goes_through(name) {
                    for test in before {
                        jumps.extend(self.unless(test, wanted)?);
                    }
                    jumps.extend(self.unless(last, wanted)?);
                } else {
                    let mut landing = Vec::new();
                    for test in before {
                        landing.extend(self.unless(test, !wanted)?);
                    }
                    jumps = self.unless(last, wanted)?;
                    self.land(landing);
                }
                Some(jumps)
            }
            _ => {
                self.simple(test)?;
                Some(vec![self.put(if wanted { 0x0B } else { 0x0A }, 0, 0, 0)])
            }
        }
    }

    fn commands(&mut self, commands: &'a [Node]) -> Option<()> {
        let mut ends = Vec::new();
        for (place, command) in commands.iter().enumerate() {
            let name = command.name.as_slice();
            let is_followed = matches!(commands.get(place + 1), Some(next) if next.name == b"elsif" || next.name == b"else");
            match name {
                b"require" => {}
                b"keep" => drop(self.put(0x13, 0, 0, 0)),
                b"discard" => drop(self.put(0x14, 0, 0, 0)),
                b"stop" => drop(self.put(0x01, 0, 0, 0)),
                b"fileinto" => {
                    self.list(command.arguments[0].strings());
                    self.put(0x15, 0, 0, 0);
                }
                b"if" | b"elsif" | b"else" => {
                    let next = match command.tests.first() {
                        Some(test) => self.unless(test, true)?,
                        None => Vec::new(),
                    };
                    self.commands(command.block.as_ref()?)?;
                    if is_followed {
                        ends.push(self.put(0x09, 0, 0, 0));
                    }
                    self.land(next);
                    if !is_followed {
                        self.land(std::mem::take(&mut ends));
                    }
                }
                _ => return None,
            }
        }
        Some(())
    }

    fn octets(&self) -> Vec<u8> {
        let mut octets = b"SVBC\x02\0\0".to_vec();
        octets.extend_from_slice(&(self.numbers.len() as u16).to_be_bytes());
        octets.extend_from_slice(&(self.strings.len() as u16).to_be_bytes());
        octets.extend_from_slice(&(self.instructions.len() as u32).to_be_bytes());
        for number in &self.numbers {
            octets.extend_from_slice(&number.to_be_bytes());
        }
        for string in &self.strings {
            octets.extend_from_slice(&(string.len() as u16).to_be_bytes());
            octets.extend_from_slice(string);
        }
        for (op, a, b, c) in &self.instructions {
            octets.extend_from_slice(&[*op, *a]);
            octets.extend_from_slice(&b.to_be_bytes());
            octets.extend_from_slice(&c.to_be_bytes());
        }
        octets
    }
}

fn compile(commands: &[Node]) -> Option<Vec<u8>> {
    let mut code = Code::default();
    code.commands(commands)?;
    code.put(0x01, 0, 0, 0);
    Some(code.octets())
}

pub fn tokens(script: &[u8], rounds: u32) -> u64 {
    total(rounds, || tokens_of(script).map_or(0, |tokens| tokens.len() as u64))
}

pub fn checked(script: &[u8], rounds: u32) -> u64 {
    total(rounds, || u64::from(check(script).is_some()))
}

pub fn compiled(script: &[u8], rounds: u32) -> u64 {
    total(rounds, || match check(script).and_then(|commands| compile(&commands)) {
        Some(octets) => told(&octets, rounds),
        None => u64::MAX,
    })
}

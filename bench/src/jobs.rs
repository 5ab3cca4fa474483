//! The jobs: each is the library's work beside the same in plain Rust, on one input.
use crate::plain::codecs::Encoding;
use crate::plain::{codecs, filters, mail, matching, programs, scripts};
use crate::{inputs, ours};

/// One side of a job: its work, so many times, and a number that stands for the answers.
pub type Side = Box<dyn Fn(u32) -> u64>;

pub struct Job {
    pub name: String,
    /// How many octets a round reads, 0 where that says nothing.
    pub octets: usize,
    /// The octets of the message that is read, for the memory beside it; 0 where none is.
    pub message: usize,
    /// How many times as long as plain Rust it may take.
    pub aim: f64,
    pub ours: Side,
    pub plain: Side,
}

const MIB: usize = 1 << 20;

const AIM: f64 = 1.2;

/// A job that may be wanted. Its input is only made where it is.
pub struct Entry {
    pub name: String,
    /// The heading under which `about.md` says what its figures mean.
    pub group: &'static str,
    pub job: Box<dyn Fn() -> Job>,
}

struct Entries {
    group: &'static str,
    all: Vec<Entry>,
}

impl Entries {
    // A job on octets.
    fn add(
        &mut self,
        name: impl Into<String>,
        input: impl Fn() -> Vec<u8> + 'static,
        ours: impl Fn(&[u8], u32) -> u64 + Copy + 'static,
        plain: impl Fn(&[u8], u32) -> u64 + Copy + 'static,
    ) {
        self.add_with(name, AIM, false, input, ours, plain);
    }

    // A job on a message.
    fn add_mail(
        &mut self,
        name: impl Into<String>,
        input: impl Fn() -> Vec<u8> + 'static,
        ours: impl Fn(&[u8], u32) -> u64 + Copy + 'static,
        plain: impl Fn(&[u8], u32) -> u64 + Copy + 'static,
    ) {
        self.add_with(name, AIM, true, input, ours, plain);
    }

    fn add_with(
        &mut self,
        name: impl Into<String>,
        aim: f64,
        is_mail: bool,
        input: impl Fn() -> Vec<u8> + 'static,
        ours: impl Fn(&[u8], u32) -> u64 + Copy + 'static,
        plain: impl Fn(&[u8], u32) -> u64 + Copy + 'static,
    ) {
        let name = name.into();
        let job = {
            let name = name.clone();
            move || {
                let text: &'static [u8] = input().leak();
                Job {
                    name: name.clone(),
                    octets: text.len(),
                    message: if is_mail { text.len() } else { 0 },
                    aim,
                    ours: Box::new(move |rounds| ours(text, rounds)),
                    plain: Box::new(move |rounds| plain(text, rounds)),
                }
            }
        };
        self.all.push(Entry { name, group: self.group, job: Box::new(job) });
    }
}

/// All jobs, in the order of the table.
pub fn all() -> Vec<Entry> {
    let mut entries = Entries { group: "", all: Vec::new() };
    let groups: &[(&'static str, fn(&mut Entries))] = &[
        ("Encodings", encodings),
        ("Lines and headers", lines_and_headers),
        ("The parts of messages", trees),
        ("Contents and digests", contents),
        ("Matching", keys),
        ("Scripts", languages),
        ("Verifying", verifying),
        ("Running", running),
        #[cfg(sqlite)]
        ("Depots in memory", depots),
        #[cfg(sqlite)]
        ("Depots in files", files),
    ];
    for (group, add) in groups {
        entries.group = group;
        add(&mut entries);
    }
    entries.all
}

fn encodings(entries: &mut Entries) {
    for (number, (encoding, name)) in Encoding::ALL.into_iter().enumerate() {
        let number = number as u32;
        entries.add(
            format!("encode {name}"),
            || inputs::noise(MIB),
            move |octets, rounds| ours::bench_encode(number, octets, rounds),
            move |octets, rounds| codecs::encode(encoding, octets, rounds),
        );
        entries.add(
            format!("decode {name}"),
            move || codecs::text_of(&inputs::noise(MIB), encoding),
            move |text, rounds| ours::bench_decode(number, text, rounds),
            move |text, rounds| codecs::decode(encoding, text, rounds),
        );
    }
    let prose = b"The quick brown fox jumps over the lazy dog, again and again, over the dog.\r\n";
    for (name, piece) in [("decode qp, lines of prose", prose.as_slice()), ("decode qp, an escape each three octets", b"ab=C3")] {
        entries.add(
            name,
            move || inputs::repeated(MIB, b"", piece, b""),
            |text, rounds| ours::bench_decode(5, text, rounds),
            |text, rounds| codecs::decode(Encoding::Qp, text, rounds),
        );
    }
    for piece in [77usize, 78, 4_096] {
        entries.add(
            format!("decode base64-mime in pieces of {piece}"),
            || codecs::text_of(&inputs::noise(MIB), Encoding::Base64Mime),
            move |text, rounds| ours::bench_decode_pieces(piece, text, rounds),
            move |text, rounds| codecs::decode_pieces(piece, text, rounds),
        );
    }
    for distance in [1usize, 3, 4, 31, 64, 75] {
        let text = move || {
            let symbols: Vec<u8> = (0..distance).map(|place| b"Zm9vYmFy"[place % 8]).collect();
            inputs::repeated(MIB, b"", &[&symbols[..], b"!"].concat(), b"")
        };
        entries.add(
            format!("decode base64-mime, a stray after each {distance}"),
            text,
            |text, rounds| ours::bench_decode(1, text, rounds),
            |text, rounds| codecs::decode(Encoding::Base64Mime, text, rounds),
        );
    }
}

fn lines_and_headers(entries: &mut Entries) {
    for length in [1usize, 76, 10_000] {
        let text = move || inputs::repeated(10_000_000, b"", &[&b"a".repeat(length)[..], b"\n"].concat(), b"");
        entries.add(format!("lines of {length}"), text, ours::bench_lines, mail::in_lines);
    }
    let field = b"X-Header-Field: a value of some words\r\n".as_slice();
    let folded = b"X-Header-Field: a value\r\n of some words\r\n\tand more\r\n".as_slice();
    for (name, piece, count) in [
        ("20,000 fields", field, 20_000),
        ("200,000 fields", field, 200_000),
        ("20,000 folded fields", folded, 20_000),
        ("200,000 folded fields", folded, 200_000),
    ] {
        entries.add(format!("header of {name}"), move || piece.repeat(count), ours::bench_header, mail::fields);
        entries.add(format!("values of {name}"), move || piece.repeat(count), ours::bench_values, mail::values);
    }
    let one = || inputs::repeated(10_000_000, b"X:", b" value\r\n", b"\r\n");
    entries.add("values of one field of 10 MB", one, ours::bench_values, mail::values);
    entries.add("header of 10 MB of colons", || b":".repeat(10_000_000), ours::bench_header, mail::fields);
}

fn trees(entries: &mut Entries) {
    let mut add = |name: &str, input: fn() -> Vec<u8>| entries.add_mail(name, input, ours::bench_tree, mail::parts);
    add("tree of 10 MB in 8 attachments", || inputs::attachments(8, 16_000));
    add("tree of 10 MB in 4,000 parts", || inputs::attachments(4_000, 32));
    add("tree of 4,095 empty parts", || {
        [b"Content-Type: multipart/mixed; boundary=b\n\n".as_slice(), &b"--b\n".repeat(4_095)].concat()
    });
    add("tree of 1,000,000 lines --b without a header", || b"--b\n".repeat(1_000_000));
    add("tree of 1,000,000 lines that begin as a delimiter", || inputs::multipart_of(b"--c\n", 1_000_000));
    add("tree of 31 nested multiparts over 1,000,000 lines --b", || {
        [inputs::levels(b"x"), b"--b\n".repeat(1_000_000)].concat()
    });
    add("tree of 31 nested multiparts over 10 MB of base64", || {
        [inputs::levels(b"x"), inputs::BASE64_LINE.repeat(128_000)].concat()
    });
    add("tree of one multipart over 10 MB of base64", || inputs::multipart_of(inputs::BASE64_LINE, 128_000));
    add("tree of 31 boundaries of 60,000 with a common prefix", || {
        let boundary = b"b".repeat(60_000);
        let line = [b"--".as_slice(), &boundary, b"x\n"].concat();
        [inputs::levels(&boundary), line.repeat(600)].concat()
    });
    add("tree of a boundary of 60,000 and lines that begin with it", || {
        let boundary = b"b".repeat(60_000);
        let line = [b"--".as_slice(), &boundary, b"x\n"].concat();
        [b"Content-Type: multipart/mixed; boundary=".as_slice(), &boundary, b"\n\n", &line.repeat(100)].concat()
    });
    add("tree of one header of 10 MB", || inputs::repeated(10_000_000, b"", b"X-Header-Field: a value of some words\r\n", b"\r\n"));
    add("tree of 20,000,000 empty fields", || b"a:\n".repeat(20_000_000));
    add("tree of 16,000,000 parameters in one field", || inputs::repeated(64_000_000, b"Content-Type: text/plain", b";a=b", b"\n\n"));
}

fn contents(entries: &mut Entries) {
    let mut add = |name: &str, input: fn() -> Vec<u8>, digests: bool| {
        if digests {
            entries.add_mail(format!("digests of {name}"), input, ours::bench_digests, mail::digests);
        } else {
            entries.add_mail(format!("contents of {name}"), input, ours::bench_contents, mail::contents);
        }
    };
    for digests in [false, true] {
        add("10 MB in 8 attachments", || inputs::attachments(8, 16_000), digests);
        add("10 MB in 4,000 parts", || inputs::attachments(4_000, 32), digests);
    }
}

fn keys(entries: &mut Entries) {
    let mut add = |name: String, way: u32, casemap: bool, value: fn() -> Vec<u8>, key: Vec<u8>| {
        let key: &'static [u8] = key.leak();
        entries.add(
            name,
            value,
            move |value, rounds| ours::bench_match(way, casemap, value, key, rounds),
            move |value, rounds| matching::found(way, casemap, value, key, rounds),
        );
    };
    let same = || b"a".repeat(MIB);
    let others = || inputs::letters(MIB, 1);
    for (comparator, casemap) in [("octet", false), ("casemap", true)] {
        for length in [1_024usize, 16_384] {
            let near = [b"a".repeat(length - 1), b"b".to_vec()].concat();
            let far = [b"b".to_vec(), b"a".repeat(length - 1)].concat();
            add(format!("contains a..ab of {length} in 1 MB of a, {comparator}"), 1, casemap, same, near);
            add(format!("contains ba..a of {length} in 1 MB of a, {comparator}"), 1, casemap, same, far);
            add(format!("contains {length} letters in 1 MB of letters, {comparator}"), 1, casemap, others, inputs::letters(length, 2));
        }
        let between = [b"*".as_slice(), &b"a".repeat(255), b"b*"].concat();
        add(format!("matches *KEY* with a..ab of 256 in 64 kB of a, {comparator}"), 2, casemap, || b"a".repeat(MIB / 16), between);
        let value = || b"[project-announce] Release 4.3 is out, and so is its manual.".to_vec();
        // by octet the compiler makes the comparison once, before the rounds
        if casemap {
            add(format!("is of 60, {comparator}"), 0, casemap, value, value());
        }
        add(format!("contains in 60, {comparator}"), 1, casemap, value, b"its manual".to_vec());
        add(format!("matches of 60, four wildcards, {comparator}"), 2, casemap, value, b"[*] Rel* *".to_vec());
        add(format!("matches of 60, no fit, {comparator}"), 2, casemap, value, b"*so it is*".to_vec());
    }
    let key = [b"*".as_slice(), &b"a?".repeat(200), b"b*"].concat();
    add("matches *a?a?..b* in 64 kB of a, octet".to_string(), 2, false, || b"a".repeat(MIB / 16), key);
}

fn languages(entries: &mut Entries) {
    const OCTETS: usize = 65_536;
    let lexed: [(&str, &'static [u8], &'static [u8], &'static [u8]); 9] = [
        ("plain commands", b"", b"if size :over 5K { discard; } # no\r\n", b""),
        ("quotes and backslashes", b"", b"\"\\\\\\\"\" ", b""),
        ("one string of backslashes", b"\"", b"\\\\", b"\""),
        ("a comment in a comment", b"/*", b" /*", b"*/"),
        ("an open comment", b"", b"/* ", b""),
        ("empty comments", b"", b"/**/", b""),
        ("dots in a multi-line text", b"text:\r\n", b"..\r\n", b".\r\n"),
        ("numbers of 19 digits", b"", b"1844674407370955161 ", b""),
        ("stop", b"", b"stop;", b""),
    ];
    for (name, head, piece, tail) in lexed {
        entries.add(format!("tokens of 64 kB: {name}"), move || inputs::repeated(OCTETS, head, piece, tail), ours::bench_tokens, scripts::tokens);
    }
    let compiled: [(&str, fn() -> Vec<u8>); 7] = [
        ("64 kB of plain commands", || inputs::repeated(OCTETS, b"", b"if size :over 5K { discard; } # no\r\n", b"")),
        ("64 kB of stop", || b"stop;".repeat(OCTETS / 5)),
        ("64 kB in 31 blocks", || inputs::nested_blocks(OCTETS)),
        ("64 kB of one list", || inputs::repeated(OCTETS, b"if anyof (true", b",true", b") {}")),
        ("64 kB of different numbers", || inputs::different_numbers(OCTETS)),
        ("64 kB of different strings", || inputs::different_strings(OCTETS)),
        ("a filter of six tests", || inputs::SIX_TESTS.to_vec()),
    ];
    for (name, script) in compiled {
        entries.add(format!("check {name}"), script, ours::bench_check, scripts::checked);
        entries.add(format!("compile {name}"), script, ours::bench_compile, scripts::compiled);
    }
    entries.add("check a filter of ten variables", || inputs::TEN_OF_EACH.to_vec(), ours::bench_check, scripts::checked);
}

const EACH: u8 = 0x17;
const NEXT: u8 = 0x18;
const KEEP: u8 = 0x13;
const HALT: u8 = 0x01;

fn verifying(entries: &mut Entries) {
    let mut add = |name: &str, code: fn() -> Vec<(u8, u8, u16, u32)>| {
        let program = move || programs::octets_of(&[1024], &[b"x"], &code());
        entries.add(format!("verify 65,536: {name}"), program, ours::bench_verify, programs::verified);
    };
    const MOST: u32 = 65_536;
    add("KEEP", || ended(vec![(KEEP, 0, 0, 0); MOST as usize - 1]));
    add("EACH and NEXT in turn", || ended((0..MOST / 2 - 1).flat_map(|pair| [(EACH, 0, 0, pair * 2 + 1), (NEXT, 0, 0, pair * 2)]).collect()));
    add("every EACH before every NEXT", || {
        let half = MOST / 2 - 1;
        ended((0..half).map(|place| (EACH, 0, 0, half * 2 - 1 - place)).chain((0..half).map(|place| (NEXT, 0, 0, half - 1 - place))).collect())
    });
    add("EACH without NEXT", || ended(vec![(EACH, 0, 0, MOST - 1); MOST as usize - 1]));
    add("jumps to one target", || ended(vec![(0x09, 0, 0, MOST - 1); MOST as usize - 1]));
    add("LIT and FILE in turn", || ended([(0x02, 0, 0, 0), (0x15, 0, 0, 0)].repeat(MOST as usize / 2 - 1)));
}

fn ended(mut code: Vec<(u8, u8, u16, u32)>) -> Vec<(u8, u8, u16, u32)> {
    code.push((HALT, 0, 0, 0));
    code
}

fn running(entries: &mut Entries) {
    let compiled: fn(&[u8]) -> Vec<u8> = |script| {
        let name = std::env::temp_dir().join(format!("depot-bench-{}", std::process::id()));
        crate::compiled_by_program(script, &name)
    };
    entries.add_with(
        "run a filter of six tests",
        1.5,
        false,
        || inputs::NEWSLETTER.to_vec(),
        move |message, rounds| ours::bench_run(false, once(&SIX, || compiled(inputs::SIX_TESTS)), message, rounds),
        filters::six_tests,
    );
    entries.add_with(
        "run ten set and ten string",
        1.5,
        false,
        Vec::new,
        move |message, rounds| ours::bench_run(false, once(&TEN, || compiled(inputs::TEN_OF_EACH)), message, rounds),
        |_, rounds| filters::ten_of_each(rounds),
    );
    entries.add_with(
        "run forty doublings of a variable",
        1.5,
        false,
        Vec::new,
        move |message, rounds| ours::bench_run(false, once(&DOUBLINGS, || compiled(&inputs::doublings(40))), message, rounds),
        |_, rounds| filters::doublings(40, rounds),
    );
    let texts: &'static [u8] = programs::octets_of(&[], &[&[b'x'; 4_096]], &joined_texts(512, 509)).leak();
    entries.add_with(
        "run the largest stack of joined texts",
        1.5,
        false,
        Vec::new,
        move |message, rounds| ours::bench_run(false, texts, message, rounds),
        |_, rounds| filters::joined_texts(512, 509, rounds),
    );
    run_code(entries, "run 65,536 instructions: SIZE, NOT, JT", &[1024], &[], sizes, || b"Subject: a\r\n\r\n".to_vec(), vec![0]);
    let mut below = vec![0; 4_096];
    for (level, parts) in below.iter_mut().enumerate().take(31) {
        *parts = 4_095 - level;
    }
    let three = || vec![(EACH, 0, 0, 6), (EACH, 0, 0, 5), (EACH, 0, 0, 4), (KEEP, 0, 0, 0), (NEXT, 0, 0, 2), (NEXT, 0, 0, 1), (NEXT, 0, 0, 0), (HALT, 0, 0, 0)];
    run_code(entries, "run three nested loops over 4,096 parts", &[], &[], three, inputs::most_turns, below);
    let large = || inputs::repeated(14_000_000, b"Content-Transfer-Encoding: base64\n\n", inputs::BASE64_LINE, b"");
    for (name, tests) in [("run a test of 14 MB of content", 1), ("run ten tests of 14 MB of content", 10)] {
        let code = move || body_tests(tests);
        run_code(entries, name, &[], &[b"another text"], code, large, vec![0]);
    }
}

fn run_code(
    entries: &mut Entries,
    name: &str,
    numbers: &[u64],
    strings: &[&[u8]],
    code: impl Fn() -> Vec<(u8, u8, u16, u32)>,
    message: fn() -> Vec<u8>,
    below: Vec<usize>,
) {
    let program: &'static [u8] = programs::octets_of(numbers, strings, &code()).leak();
    let below: &'static [usize] = below.leak();
    entries.add(
        name,
        message,
        move |message, rounds| ours::bench_run(true, program, message, rounds),
        move |message, rounds| programs::runs(program, message, below, rounds),
    );
}

fn sizes() -> Vec<(u8, u8, u16, u32)> {
    ended((0..21_845).flat_map(|test| [(0x0F, 0, 0, 0), (0x08, 0, 0, 0), (0x0A, 0, 0, test * 3 + 3)]).collect())
}

// Texts of four values each, so many of which are sources and keys of one test.
fn joined_texts(sources: u16, keys: u16) -> Vec<(u8, u8, u16, u32)> {
    let mut code = vec![(0x02, 0, 0, 0), (0x06, 0, 0, 0)];
    for _ in 0..sources + keys {
        code.extend([(0x03, 0, 0, 0); 4]);
        code.push((0x05, 0, 4, 0));
    }
    code.push((0x0E, 0, sources, u32::from(keys)));
    code.push((0x0B, 0, 0, code.len() as u32 + 1));
    ended(code)
}

// A loop whose body compares the content so many times.
fn body_tests(tests: u32) -> Vec<(u8, u8, u16, u32)> {
    let mut code = vec![(EACH, 0, 0, tests * 3 + 1)];
    for test in 0..tests {
        code.extend([(0x02, 0, 0, 0), (0x11, 4, 0, 1), (0x0A, 0, 0, test * 3 + 4)]);
    }
    code.push((NEXT, 0, 0, 0));
    ended(code)
}

type Once = std::sync::OnceLock<Vec<u8>>;
static SIX: Once = Once::new();
static TEN: Once = Once::new();
static DOUBLINGS: Once = Once::new();

fn once(cell: &'static Once, make: impl Fn() -> Vec<u8>) -> &'static [u8] {
    cell.get_or_init(make)
}

#[cfg(sqlite)]
fn depots(entries: &mut Entries) {
    use crate::plain::store;
    entries.add(
        "deliver mails of 1 kB into memory",
        inputs::small_mail,
        |mail, rounds| ours::bench_deliver(inputs::SIX_BRANCHES, mail, rounds),
        store::deliver,
    );
    entries.add(
        "deliver 400 mails of 1 kB, then list them so many times",
        inputs::small_mail,
        |mail, rounds| ours::bench_list(400, mail, rounds),
        |mail, rounds| store::list(400, mail, rounds),
    );
    entries.add(
        "deliver 10,000 mails of 1 kB into memory",
        inputs::small_mail,
        |mail, rounds| ours::bench_deliver(inputs::SIX_BRANCHES, mail, rounds.max(1) * 10_000),
        |mail, rounds| store::deliver(mail, rounds.max(1) * 10_000),
    );
    entries.add(
        "deliver 1,000 mails of 1 kB, then deliver and remove one so many times",
        inputs::small_mail,
        |mail, rounds| ours::bench_remove(1_000, mail, rounds),
        |mail, rounds| store::remove(1_000, mail, rounds),
    );
    entries.add(
        "deliver a mail of 1 MB, then export it so many times",
        || inputs::attachments(1, 13_000),
        ours::bench_export,
        store::export,
    );
}

// Processes on a depot in a file: the program, and this one with the same words, each on a file of its own.
#[cfg(sqlite)]
fn files(entries: &mut Entries) {
    use std::process::Command;
    for (name, command, words) in [
        ("a process that delivers a mail of 1 kB into a file of 400", "deliver", &["MAIL"][..]),
        ("a process that lists a file of 400 mails of 1 kB", "list", &[][..]),
        ("a process that exports a mail of 1 kB from a file of 400", "export", &["1", "base64-mime"][..]),
    ] {
        let job = move || {
            let folder = std::env::temp_dir().join(format!("depot-bench-{}-{command}", std::process::id()));
            std::fs::create_dir_all(&folder).expect("a folder for the jobs");
            std::fs::write(folder.join("mail"), inputs::small_mail()).expect("a mail");
            std::fs::write(folder.join("script"), inputs::SIX_BRANCHES).expect("a script");
            let side = |program: std::path::PathBuf, before: &'static [&'static str], file: &str| -> Side {
                let (file, mail, script) = (folder.join(file), folder.join("mail"), folder.join("script"));
                let call = move |command: &str, words: &[&str]| -> Vec<u8> {
                    let mut process = Command::new(&program);
                    process.args(before).arg(command).arg(&file).arg("ann");
                    for word in words {
                        match *word {
                            "MAIL" => process.arg(&mail),
                            "SCRIPT" => process.arg(&script),
                            _ => process.arg(word),
                        };
                    }
                    process.output().expect("a process").stdout
                };
                // the plain side's filter is written out by hand
                if before.is_empty() {
                    call("script", &["SCRIPT"]);
                }
                for _ in 0..400 {
                    call("deliver", &["MAIL"]);
                }
                Box::new(move |rounds| crate::plain::total(rounds, || crate::plain::told(&call(command, words), rounds)))
            };
            let depot = std::env::var_os("DEPOT").expect("DEPOT names the program");
            Job {
                name: name.to_string(),
                octets: 0,
                message: 0,
                aim: AIM,
                ours: side(depot.into(), &[], "ours"),
                plain: side(std::env::current_exe().expect("this program"), &["--depot"], "plain"),
            }
        };
        entries.all.push(Entry { name: name.to_string(), group: entries.group, job: Box::new(job) });
    }
}

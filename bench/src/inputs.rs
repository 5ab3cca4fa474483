//! The inputs of the jobs. None of them needs a file.

/// A head, a piece over and over up to so many octets in all, and a tail.
pub fn repeated(octets: usize, head: &[u8], piece: &[u8], tail: &[u8]) -> Vec<u8> {
    let pieces = octets.saturating_sub(head.len() + tail.len()) / piece.len();
    [head, &piece.repeat(pieces), tail].concat()
}

/// Octets of a linear congruential generator.
pub fn noise(octets: usize) -> Vec<u8> {
    let mut state: u32 = 1;
    (0..octets)
        .map(|_| {
            state = state.wrapping_mul(1_664_525).wrapping_add(1_013_904_223);
            (state >> 24) as u8
        })
        .collect()
}

/// Small letters of the same generator.
pub fn letters(octets: usize, seed: u32) -> Vec<u8> {
    let mut state = seed;
    (0..octets)
        .map(|_| {
            state = state.wrapping_mul(1_664_525).wrapping_add(1_013_904_223);
            b'a' + (state >> 24) as u8 % 26
        })
        .collect()
}

pub const BASE64_LINE: &[u8] = b"Zm9vYmFyZm9vYmFyZm9vYmFyZm9vYmFyZm9vYmFyZm9vYmFyZm9vYmFyZm9vYmFyZm9vYmFyZm9v\r\n";

const MULTIPART: &[u8] = b"Content-Type: multipart/mixed; boundary=b\r\n\r\n--b\r\n\r\n";

/// A mail of so many attachments in base64, each of so many lines.
pub fn attachments(parts: usize, lines: usize) -> Vec<u8> {
    let part = [b"--b\r\nContent-Transfer-Encoding: base64\r\n\r\n".as_slice(), &BASE64_LINE.repeat(lines)].concat();
    [b"Content-Type: multipart/mixed; boundary=b\r\n\r\n".as_slice(), &part.repeat(parts), b"--b--\r\n"].concat()
}

/// A multipart with lines in its one part.
pub fn multipart_of(line: &[u8], lines: usize) -> Vec<u8> {
    [MULTIPART, &line.repeat(lines)].concat()
}

/// The last signs of the boundaries of multiparts in one another, as many as there may be.
const LETTERS: &[u8; 31] = b"0123456789abcdefghijklmnopqrstu";

/// 31 multiparts in one another, whose boundaries are the given text and a letter of their own, and the header of a part in the innermost.
pub fn levels(boundary: &[u8]) -> Vec<u8> {
    let mut text = Vec::new();
    for level in LETTERS {
        text.extend_from_slice(b"Content-Type: multipart/mixed; boundary=\"");
        text.extend_from_slice(boundary);
        text.push(*level);
        text.extend_from_slice(b"\"\n\n--");
        text.extend_from_slice(boundary);
        text.push(*level);
        text.push(b'\n');
    }
    text.push(b'\n');
    text
}

/// 31 multiparts in one another, and as many leaves in the innermost as a message may have besides.
pub fn most_turns() -> Vec<u8> {
    let mut text = levels(b"b");
    let last = b"\nx\n--bu\n";
    text.extend_from_slice(&last.repeat(4_064));
    text
}

pub const NEWSLETTER: &[u8] = b"Return-Path: <bounce-311@lists.gardenpost.example>\r
Received: from lists.gardenpost.example (lists.gardenpost.example [192.0.2.17])\r
\tby mx1.hollow.example (Postfix) with ESMTPS id 4Qz1Xk3WmPz9\r
\tfor <ann@hollow.example>; Fri, 13 Mar 2026 06:02:11 +0000 (UTC)\r
List-Id: Garden Post weekly <weekly.lists.gardenpost.example>\r
List-Unsubscribe: <https://lists.gardenpost.example/leave/311>\r
Precedence: bulk\r
From: \"Garden Post\" <weekly@gardenpost.example>\r
To: ann@hollow.example\r
Subject: [garden] What to sow in the second half of March\r
Date: Fri, 13 Mar 2026 06:00:00 +0000\r
Message-ID: <20260313-311@gardenpost.example>\r
MIME-Version: 1.0\r
Content-Type: multipart/mixed; boundary=\"=_garden_311\"\r
\r
";

/// A filter of six tests of the header.
pub const SIX_TESTS: &[u8] = b"require \"fileinto\";
if anyof (
    header :is \"Subject\" \"Hello\",
    header :contains \"Subject\" \"invoice\",
    header :contains [\"From\", \"Sender\"] \"@papier.example\",
    header :matches \"Subject\" \"*rechnung*\",
    header :matches \"List-Id\" \"*<daily.*>\",
    header :is \"Precedence\" \"bulk\"
) {
    fileinto \"Lists\";
}
";

/// Ten variables are set, and ten tests look at them, of which the last is true.
pub const TEN_OF_EACH: &[u8] = b"require \"variables\";
set \"a\" \"Garden Post weekly\";
set :lower \"b\" \"${a}\";
set :upperfirst \"c\" \"${b} issue\";
set \"d\" \"${a}, ${c}\";
set :quotewildcard \"e\" \"50% *off*?\";
set :length \"f\" \"${d}\";
set :upper \"g\" \"${d}\";
set \"h\" \"${g}${b}\";
set :lowerfirst \"i\" \"${h}\";
set \"j\" \"${i}: ${f} of ${e}\";
if anyof (
    string \"${a}\" \"Garden Post\",
    string :contains \"${b}\" \"daily\",
    string :matches \"${c}\" \"*monthly*\",
    string :contains \"${d}\" \"march\",
    string \"${e}\" \"50% off\",
    string :comparator \"i;octet\" \"${f}\" \"100\",
    string :contains \"${g}\" \"invoice\",
    string :matches \"${h}\" \"*<*>\",
    string [\"${i}\", \"${h}\"] [\"x\", \"y\"],
    string :contains \"${j}\" \"garden\"
) {
    discard;
}
";

/// A variable of two octets that is doubled so many times.
pub fn doublings(times: usize) -> Vec<u8> {
    [b"require \"variables\"; set \"a\" \"xy\";\n".as_slice(), &b"set \"a\" \"${a}${a}\";\n".repeat(times)].concat()
}

/// A filter of deliveries.
pub const SIX_BRANCHES: &[u8] = b"require \"fileinto\"; if header :contains \"Subject\" \"invoice\" { fileinto \"Bills\"; } elsif header :is \"X-Spam-Flag\" \"YES\" { fileinto \"Junk\"; } elsif exists \"List-Id\" { fileinto \"Lists\"; } elsif header :matches \"To\" \"*+*@*\" { fileinto \"Plus\"; } elsif size :over 1000000 { fileinto \"Large\"; } elsif header :contains \"From\" \"@example.org\" { fileinto \"Ours\"; }";

/// A mail of 1 kB.
pub fn small_mail() -> Vec<u8> {
    let line = b"A line of a mail that is about as long as lines of mails are, with its break\r\n";
    [b"From: someone@example.org\r\nTo: ann@example.org\r\nSubject: a mail\r\n\r\n".as_slice(), &line.repeat(12)].concat()
}

/// `keep;` over and over, within as many blocks as may stand around it.
pub fn nested_blocks(octets: usize) -> Vec<u8> {
    repeated(octets, &b"if true {".repeat(31), b"keep;", &b"}".repeat(31))
}

/// Tests of sizes, no two alike.
pub fn different_numbers(octets: usize) -> Vec<u8> {
    let each = |number: u32| format!("if size:over {number}{{}}").into_bytes();
    (100_000..).take(octets / 21).flat_map(each).collect()
}

/// Tests of 500 keys each, no two of which are alike.
pub fn different_strings(octets: usize) -> Vec<u8> {
    let mut script = b"if header \"s\" [".to_vec();
    for number in 0.. {
        if script.len() + 40 > octets {
            break;
        }
        if number > 0 && number % 500 == 0 {
            script.extend_from_slice(b"\"\"]{} if header \"s\" [");
        }
        script.extend_from_slice(format!("\"{number:x}\",").as_bytes());
    }
    script.extend_from_slice(b"\"\"]{}");
    script
}

//! The library's jobs, each of which goes over its input so many times.
//!
//! With a number of rounds an answer is the sum of lengths or numbers; with none it is the checksum of one round's answer.

macro_rules! jobs {
    ($($name:ident ($($number:ident: $kind:ty),*) ($($text:ident),*);)*) => {
        mod library {
            unsafe extern "C" {
                // a slice is passed as its place and its length
                $(pub fn $name($($number: $kind,)* $($text: *const u8, _: usize,)* rounds: u32) -> u64;)*
            }
        }
        $(pub fn $name($($number: $kind,)* $($text: &[u8],)* rounds: u32) -> u64 {
            unsafe { library::$name($($number,)* $($text.as_ptr(), $text.len(),)* rounds) }
        })*
    };
}

jobs! {
    bench_encode(encoding: u32) (octets);
    bench_decode(encoding: u32) (text);
    bench_decode_pieces(piece: usize) (text);
    bench_lines() (text);
    bench_header() (text);
    bench_values() (text);
    bench_tree() (message);
    bench_contents() (message);
    bench_digests() (message);
    bench_match(way: u32, casemap: bool) (value, key);
    bench_tokens() (script);
    bench_check() (script);
    bench_compile() (script);
    bench_verify() (program);
    bench_run(charges: bool) (program, message);
    bench_deliver() (script, mail);
    bench_list(mails: u32) (mail);
    bench_remove(mails: u32) (mail);
    bench_export() (mail);
}

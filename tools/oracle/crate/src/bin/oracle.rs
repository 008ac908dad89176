//! oracle MODE < input
//!   trace     docs/TRACE.md's records: what each call answers, every field of its request, and the whole state
//!   bench     the bench records and lines of document 01
//!   crc       a line each: HEX, its CRC32C; SUM HEX, the sum of what has SUM and of HEX behind it
//!   coalesce  a line each: C and pushes, all in hexadecimal; the chunks that `CoalescingBuffer::push` gives, and behind `+` what it still holds
//!   decode    a line each: HEX, and what the crate's decoder makes of it as a BidiWriteObjectRequest: the fields as in a trace's `rq` line, `malformed`,
//!             or `another request`, one that no session sends after opening
//!   encode    a line each: HEX, and what the crate's encoder writes for what the decoder makes of it, or `malformed`
//!   details   a line each: HEX, and what the crate's decoder makes of it as a BidiWriteObjectRedirectedError: token and handle in hexadecimal and the
//!             generation, and behind them `group` where there is one, or `malformed`
//!   vectors   the records of the program `wire_vectors`: `E14`, or the count and the bytes that the crate's encoder writes
//! In the formats of trace and bench a script ends at EN, another may follow, and an empty line is written behind it.
use google_cloud_storage::oracle::lines::hex;
use google_cloud_storage::oracle::records::{Format, Reader, next_script};
use google_cloud_storage::oracle::wire::{self, Vector};
use google_cloud_storage::oracle::{coalesced, details, runner};
use std::io::{Read, Write};

fn main() {
    let mode = std::env::args().nth(1).unwrap_or_default();
    let mut input = Vec::new();
    std::io::stdin().read_to_end(&mut input).expect("stdin");
    match mode.as_str() {
        "trace" => scripts(&input, Format::Trace),
        "bench" => scripts(&input, Format::Bench),
        "crc" => lines(&input, sum),
        "coalesce" => lines(&input, coalesce),
        "decode" => lines(&input, |words| wire::read(&bytes(words[0]))),
        "encode" => lines(&input, |words| wire::write_again(&bytes(words[0]))),
        "details" => lines(&input, |words| details::shown(&bytes(words[0]))),
        "vectors" => vectors(&input),
        _ => {
            eprintln!("usage: oracle trace|bench|crc|coalesce|decode|encode|details|vectors");
            std::process::exit(2);
        }
    }
}

fn scripts(input: &[u8], format: Format) {
    let mut out = std::io::BufWriter::new(std::io::stdout().lock());
    let mut reader = Reader { bytes: input };
    while let Some(script) = next_script(&mut reader, format) {
        out.write_all(runner::run(&script, format).as_bytes()).expect("stdout");
    }
}

fn vectors(input: &[u8]) {
    let mut out = std::io::BufWriter::new(std::io::stdout().lock());
    let mut reader = Reader { bytes: input };
    while let Some(vector) = Vector::next(&mut reader) {
        writeln!(out, "{}", vector.answer()).expect("stdout");
    }
}

fn lines(input: &[u8], answer: impl Fn(&[&str]) -> String) {
    let mut out = std::io::BufWriter::new(std::io::stdout().lock());
    for line in std::str::from_utf8(input).expect("text").lines() {
        let words: Vec<&str> = line.split(' ').collect();
        writeln!(out, "{}", answer(&words)).expect("stdout");
    }
}

fn bytes(word: &str) -> Vec<u8> {
    (0..word.len() / 2).map(|i| u8::from_str_radix(&word[2 * i..2 * i + 2], 16).expect("hex")).collect()
}
fn number(word: &str) -> u32 {
    u32::from_str_radix(word, 16).expect("hex")
}

fn sum(words: &[&str]) -> String {
    let data = bytes(words[words.len() - 1]);
    let sum = crc32c::crc32c(&data);
    let joined = if words.len() == 2 { crc32c::crc32c_combine(number(words[0]), sum, data.len()) } else { sum };
    format!("{joined:08x}")
}

fn coalesce(words: &[&str]) -> String {
    let (chunks, held) = coalesced(number(words[0]) as usize, words[1..].iter().map(|w| bytes(w)));
    let chunks: Vec<String> = chunks.iter().map(|c| hex(c)).collect();
    format!("{} +{}", chunks.join(" "), hex(&held))
}

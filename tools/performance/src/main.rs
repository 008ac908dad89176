//! performance BENCH FOLDER: the same uploads through the crate's own buffers and through the session as the program bench, in one run, and plans. Prints
//! the tables of docs/PERFORMANCE.md. The folder is for the program's input.
mod google;
mod journal;
mod memory;
mod ours;
mod plans;
mod theirs;
mod time;

use bytes::Bytes;
use google::storage::v2::{BidiWriteObjectRequest, ChecksummedData, ObjectChecksums, bidi_write_object_request::Data};
use prost::Message;
use std::cell::RefCell;
use std::env;
use std::hint::black_box;
use std::path::{Path, PathBuf};
use time::{rounds, side_by_side};

#[global_allocator]
static MEMORY: memory::Counting = memory::Counting;

const MIB: usize = 1 << 20;

/// An upload: appends of `piece` bytes or of a chunk of either side's own, whichever is less; a flush after each or none; finalise.
pub struct Upload {
    name: &'static str,
    bytes: usize,
    piece: usize,
    flush: bool,
}

/// What the program takes for its start and for an upload of nothing is taken off.
fn upload_row(u: &Upload, data: &Bytes, program: &Path, folder: &Path) {
    let data = data.slice(..u.bytes);
    let bench = ours::Bench::new(program, &folder.join("upload"), u, &data);
    let idle = ours::Bench::idle(program, &folder.join("idle"));
    let (theirs, ours) = side_by_side(|| assert_eq!(theirs::upload(u, &data), u.bytes), || bench.run());
    let (_, start) = side_by_side(|| (), || idle.run());
    a_byte(u.name, (theirs, ours - start), u.bytes);
}

fn sum_row(data: &Bytes) {
    assert_eq!(ours::crc32c(data), crc32c::crc32c(data));
    let ns = side_by_side(
        || {
            black_box(crc32c::crc32c(data));
        },
        || {
            black_box(ours::crc32c(data));
        },
    );
    a_byte("checksum alone, 64 MiB", ns, data.len());
}

/// What the crate has on a processor with the instruction; x86-64 has it since 2008.
fn instruction_row(data: &Bytes) {
    assert_eq!(unsafe { crc32c::by_instruction(data) }, crc32c::crc32c(data));
    let ns = side_by_side(
        || {
            black_box(unsafe { crc32c::by_instruction(data) });
        },
        || {
            black_box(ours::crc32c(data));
        },
    );
    a_byte("checksum alone, by the processor's instruction", ns, data.len());
}

fn a_byte(name: &str, (theirs, ours): (f64, f64), bytes: usize) {
    let n = bytes as f64;
    println!("| {name} | {:.2} | {:.2} | {:.2} |", theirs / n, ours / n, ours / theirs);
}

fn join_row(name: &str, length: usize) {
    const JOINS: u32 = 1000;
    assert_eq!(ours::combine(1, 2, length), crc32c::crc32c_combine(1, 2, length));
    let (theirs, ours) = side_by_side(
        || {
            black_box((0..JOINS).fold(1, |sum, i| crc32c::crc32c_combine(sum, i, length)));
        },
        || {
            black_box((0..JOINS).fold(1, |sum, i| ours::combine(sum, i, length)));
        },
    );
    let n = JOINS as f64;
    println!("| {name} | {:.0} | {:.0} | {:.2} |", theirs / n, ours / n, ours / theirs);
}

/// The request of a chunk, which asks for a flush.
fn chunk_request(content: Bytes) -> BidiWriteObjectRequest {
    let crc32c = Some(crc32c::crc32c(&content));
    BidiWriteObjectRequest { data: Some(Data::ChecksummedData(ChecksummedData { content, crc32c })), ..flush_request() }
}

fn flush_request() -> BidiWriteObjectRequest {
    BidiWriteObjectRequest { write_offset: 4 * MIB as i64, flush: true, state_lookup: true, ..BidiWriteObjectRequest::default() }
}

fn finalise_request() -> BidiWriteObjectRequest {
    let object_checksums = Some(ObjectChecksums { crc32c: Some(0xE306_9283), ..ObjectChecksums::default() });
    BidiWriteObjectRequest { state_lookup: false, finish_write: true, object_checksums, ..flush_request() }
}

/// A request into one buffer of its length, so often a round.
fn wire_row(name: &str, request: &BidiWriteObjectRequest, often: u32) {
    let written = request.encode_to_vec();
    let fields = ours::Request::new(request);
    let mut buffer = vec![0; written.len()];
    assert_eq!(fields.write(&mut buffer), written.len());
    assert_eq!(buffer, written);
    let buffer = RefCell::new(buffer);
    let (theirs, ours) = side_by_side(
        || {
            let buffer = &mut buffer.borrow_mut()[..];
            for _ in 0..often {
                black_box(black_box(request).encode(&mut &mut *black_box(&mut *buffer))).unwrap();
            }
        },
        || {
            let buffer = &mut buffer.borrow_mut()[..];
            for _ in 0..often {
                black_box(black_box(&fields).write(black_box(&mut *buffer)));
            }
        },
    );
    let n = often as f64;
    println!("| {name} | {:.1} | {:.1} | {:.2} |", theirs / n, ours / n, ours / theirs);
}

/// In a round each list is planned once.
fn plan_row(lists: &plans::Lists) {
    for list in lists.each() {
        assert_eq!(ours::plan(lists.limit, list), plans::obvious(lists.limit, list));
    }
    let all = |plan: fn(usize, &[u32]) -> ours::PlanNumbers| {
        for list in lists.each() {
            black_box(plan(lists.limit, list));
        }
    };
    let (obvious, plan) = rounds(|| all(plans::obvious), || all(ours::plan));
    let us = |ns: f64| ns / plans::LISTS as f64 / 1000.0;
    let (theirs, ours, median) = (us(obvious[0]), us(plan[0]), us(plan[plan.len() / 2]));
    let an_entry = 1000.0 * ours / plans::ENTRIES as f64;
    println!("| {} | {theirs:.0} | {ours:.0} | {median:.0} | {an_entry:.2} | {:.2} |", lists.name, ours / theirs);
}

fn memory_row(u: &Upload, data: &Bytes, sizes: &ours::Sizes) {
    let data = data.slice(..u.bytes);
    let peak = memory::peak_of(|| {
        theirs::upload(u, &data);
    });
    let kept = theirs::most_kept(u, &data);
    let lent = sizes.bytes();
    println!("| {} | {} | {} | {kept} | {lent} | {:.2} |", u.name, peak.bytes, peak.allocations, lent as f64 / (peak.bytes + kept) as f64);
}

fn main() {
    let paths: Vec<PathBuf> = env::args_os().skip(1).map(PathBuf::from).collect();
    let [program, folder] = &paths[..] else { panic!("performance BENCH FOLDER") };
    let data = Bytes::from(journal::journal(64 * MIB));
    let day = Upload { name: "a day: 700 × 6,000, a flush each", bytes: 700 * 6000, piece: 6000, flush: true };
    let long = |name, mib| Upload { name, bytes: mib * MIB, piece: usize::MAX, flush: false };
    let growth = [long("1 MiB", 1), long("2 MiB", 2), long("4 MiB", 4), long("8 MiB", 8), long("16 MiB", 16), long("32 MiB", 32), long("64 MiB", 64)];

    println!("| upload | the crate's buffers, ns a byte | the session, ns a byte | ratio |\n|---|---|---|---|");
    upload_row(&day, &data, program, folder);
    for u in &growth {
        upload_row(u, &data, program, folder);
    }
    sum_row(&data);
    instruction_row(&data);
    println!("\n| a join behind | squared matrices, ns | the session, ns | ratio |\n|---|---|---|---|");
    join_row("6,000 bytes", 6000);
    join_row("2 MiB", 2 * MIB);
    println!("\n| a request's bytes | prost's encode, ns | wire::write, ns | ratio |\n|---|---|---|---|");
    wire_row("a flush without data", &flush_request(), 100_000);
    wire_row("finalise, with the object's sum", &finalise_request(), 100_000);
    wire_row("6,000 bytes of data", &chunk_request(data.slice(..6000)), 20_000);
    wire_row("2,097,152 bytes of data", &chunk_request(data.slice(..2 * MIB)), 20);
    println!("\n| 65,536 entries | the obvious loop, µs | planning::plan, µs | its median, µs | ns an entry | ratio |\n|---|---|---|---|---|---|");
    for lists in &plans::lists() {
        plan_row(lists);
    }
    println!(
        "\n| upload | the crate: allocated at most | allocations | caller's bytes kept at most | the session: lent | ratio |\n|---|---|---|---|---|---|"
    );
    memory_row(&day, &data, &ours::CRATE);
    for u in &growth {
        memory_row(u, &data, &ours::CRATE);
    }
    println!("| with the sizes of the times above: | | | | | |");
    memory_row(&day, &data, &ours::BENCH);
}

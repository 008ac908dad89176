//! The crate's own CoalescingBuffer and ReplayBuffer, their files unchanged, joined as the crate's transport and worker join them.
use crate::Upload;
use crate::google::storage::v2::{BidiWriteObjectRequest, ChecksummedData, ObjectChecksums, bidi_write_object_request::Data};
use bidi_write::MAX_WRITE_CHUNK_SIZE;
use bidi_write::coalescing_buffer::CoalescingBuffer;
use bidi_write::replay_buffer::{ReplayBuffer, ReplayChunk};
use bytes::Bytes;
use std::hint::black_box;
use std::ops::Range;

mod bidi_write {
    pub const MAX_WRITE_CHUNK_SIZE: usize = 2 * 1024 * 1024;
    pub mod coalescing_buffer;
    pub mod replay_buffer;
}

struct Writer {
    write_offset: i64,
    running_crc32c: u32,
    coalescing_buffer: CoalescingBuffer,
    replay_buffer: ReplayBuffer,
    /// for `most_kept`: where the caller's bytes lie
    watched: Option<Range<*const u8>>,
    most_kept: usize,
}

impl Writer {
    fn append(&mut self, data: Bytes) {
        for chunk in self.coalescing_buffer.push(data) {
            self.append_sub_chunk(chunk);
        }
    }

    /// `append_sub_chunk` of transport.rs, `process_intent` of worker.rs, and the response where the request asks for one.
    fn append_sub_chunk(&mut self, chunk: Bytes) {
        let length = chunk.len();
        let crc32c = crc32c::crc32c(&chunk);
        let mut request = BidiWriteObjectRequest {
            write_offset: self.write_offset,
            data: Some(Data::ChecksummedData(ChecksummedData { content: chunk.clone(), crc32c: Some(crc32c) })),
            ..BidiWriteObjectRequest::default()
        };
        self.running_crc32c = crc32c::crc32c_combine(self.running_crc32c, crc32c, length);
        self.replay_buffer.push(ReplayChunk::new(self.write_offset, chunk, crc32c));
        self.write_offset += length as i64;
        self.watch();
        request.flush = self.replay_buffer.unpersisted_bytes() >= self.replay_buffer.capacity() - 2 * MAX_WRITE_CHUNK_SIZE;
        request.state_lookup = request.flush;
        let asks = request.flush;
        black_box(request);
        if asks {
            self.replay_buffer.ack(self.write_offset);
        }
    }

    fn watch(&mut self) {
        if let Some(caller) = &self.watched {
            let kept = self.replay_buffer.chunks_to_replay().map(|c| &c.data).filter(|d| caller.contains(&d.as_ptr())).map(Bytes::len).sum();
            self.most_kept = self.most_kept.max(kept);
        }
    }

    fn flush(&mut self) {
        self.send_residual();
        black_box(BidiWriteObjectRequest { write_offset: self.write_offset, flush: true, state_lookup: true, ..BidiWriteObjectRequest::default() });
        self.replay_buffer.ack(self.write_offset);
    }

    fn finalize(&mut self) {
        self.send_residual();
        let object_checksums = Some(ObjectChecksums { crc32c: Some(self.running_crc32c), ..ObjectChecksums::default() });
        black_box(BidiWriteObjectRequest {
            write_offset: self.write_offset,
            flush: true,
            finish_write: true,
            object_checksums,
            ..BidiWriteObjectRequest::default()
        });
        self.replay_buffer.ack(self.write_offset);
    }

    fn send_residual(&mut self) {
        if let Some(residual) = self.coalescing_buffer.flush() {
            self.append_sub_chunk(residual);
        }
    }
}

fn run(u: &Upload, data: &Bytes, watched: Option<Range<*const u8>>) -> Writer {
    let mut w = Writer {
        write_offset: 0,
        running_crc32c: 0,
        coalescing_buffer: CoalescingBuffer::new(),
        replay_buffer: ReplayBuffer::new(),
        watched,
        most_kept: 0,
    };
    let piece = u.piece.min(MAX_WRITE_CHUNK_SIZE);
    for at in (0..data.len()).step_by(piece) {
        w.append(data.slice(at..data.len().min(at + piece)));
        if u.flush {
            w.flush();
        }
    }
    w.finalize();
    w
}

pub fn upload(u: &Upload, data: &Bytes) -> usize {
    run(u, data, None).write_offset as usize
}

/// Stored bytes that lie in the caller's memory, which must stay till they are acknowledged: the most at a time.
pub fn most_kept(u: &Upload, data: &Bytes) -> usize {
    run(u, data, Some(data.as_ptr_range())).most_kept
}

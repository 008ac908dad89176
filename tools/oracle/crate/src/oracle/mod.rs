//! Drives the crate's `AppendableObjectWriterTransport`, `Worker` and `Connector` one call at a time.
pub mod calls; // the calls and their arguments
pub mod details; // the value of a redirect detail
pub mod lines; // the text of requests and states
pub mod network; // client, stream and retry policy: the script
pub mod probe; // what the probes in the crate's files publish
pub mod records; // the two binary formats
pub mod refusals; // the refusals that document 01 adds: nothing of the crate
pub mod runner; // one script
pub mod session; // one session
pub mod wire; // requests as bytes

/// The two sizes that document 01 lets vary; they are constants in the crate.
pub mod sizes {
    use std::cell::Cell;
    thread_local! {
        static CHUNK: Cell<usize> = const { Cell::new(2 * 1024 * 1024) };
        static CAPACITY: Cell<usize> = const { Cell::new(32 * 1024 * 1024) };
    }
    pub fn chunk() -> usize {
        CHUNK.get()
    }
    pub fn capacity() -> usize {
        CAPACITY.get()
    }
    pub fn set(chunk: usize, capacity: usize) {
        CHUNK.set(chunk);
        CAPACITY.set(capacity);
    }
}

/// What the crate's `CoalescingBuffer` gives for these pushes, and what it still holds.
pub fn coalesced(chunk: usize, pushes: impl Iterator<Item = Vec<u8>>) -> (Vec<bytes::Bytes>, Vec<u8>) {
    sizes::set(chunk, 0);
    let mut buffer = crate::storage::bidi_write::coalescing_buffer::CoalescingBuffer::new();
    let chunks = pushes.flat_map(|p| buffer.push(p.into())).collect();
    (chunks, buffer.oracle_held().to_vec())
}

//! The C library from Rust: safe wrappers over `extern "C"`, and a blob gathered by four threads.
//!
//! In this folder `cargo run` builds it with an installed library. Without cargo:
//! rustc --edition 2021 -L FOLDER_OF_THE_ARCHIVE -l static=berylwool c/examples/berylwool.rs
use std::io::{self, Read};
use std::ptr;
use std::sync::Arc;

#[repr(C)]
#[derive(Clone, Copy)]
pub struct Mode {
    kind: u32,
    key: [u8; 32],
}

/// Which slice of which blob.
#[repr(C)]
struct Slice {
    mode: Mode,
    root: [u8; 32],
    start: u64,
    len: u64,
}

#[repr(C)]
#[derive(Default)]
struct Node {
    kind: u32,
    number: u64,
}

#[repr(C)]
struct Handle {
    at: *mut u8,
}

unsafe extern "C" {
    fn bw_free(handle: &mut Handle);
    fn bw_hash(mode: &Mode, bytes: *const u8, len: usize, at: u64, out: *mut u8, out_len: usize) -> u32;
    fn bw_slice_len(len: u64, start: u64, slice_len: u64) -> u64;
    fn bw_encode(mode: &Mode, bytes: *const u8, len: usize, out: *mut u8, out_len: usize, used: &mut usize, root: &mut [u8; 32]) -> u32;
    fn bw_cut_slice(text: *const u8, text_len: usize, start: u64, len: u64, out: *mut u8, out_len: usize, used: &mut usize) -> u32;
    fn bw_check(slice: &Slice, text: *const u8, text_len: usize, at: &mut u64) -> u32;
    fn bw_feed_new(slice: &Slice, feed: &mut Handle) -> u32;
    fn bw_feed_take(feed: &mut Handle, bytes: *const u8, bytes_len: usize, out: *mut u8, out_len: usize, taken: &mut usize, filled: &mut usize, at: &mut u64) -> u32;
    fn bw_feed_finish(feed: &mut Handle, rest: *const u8, rest_len: usize, at: &mut u64) -> u32;
    fn bw_seat_new(mode: &Mode, root: &[u8; 32], first_chunk: u64, capacity: u32, seat: &mut Handle) -> u32;
    fn bw_seat_split(seat: &mut Handle, other: &mut Handle) -> u32;
    fn bw_seat_join(seat: &mut Handle, other: &mut Handle) -> u32;
    fn bw_seat_take(seat: &mut Handle, group: u32, want: u64, granted: &mut u64) -> u32;
    fn bw_seat_give(seat: &mut Handle, group: u32, mask: u64, given: &mut u64) -> u32;
    fn bw_seat_commit(seat: &mut Handle, start: u64, len: u64, text: *const u8, text_len: usize, committed: &mut u64, parents: &mut u64, at: &mut u64) -> u32;
    fn bw_seat_settle(seat: &mut Handle, text: *const u8, text_len: usize, at: &mut u64) -> u32;
    fn bw_seat_read(seat: &mut Handle, from: u64, out: *mut u8, out_len: usize, missing: &mut u64) -> u32;
    fn bw_seat_slice(seat: &mut Handle, start: u64, len: u64, out: *mut u8, out_len: usize, used: &mut usize, lacking: &mut Node) -> u32;
    fn bw_seat_finish(seat: &mut Handle, out: *mut u8, out_len: usize, used: &mut usize) -> u32;
}

pub const PLAIN: Mode = Mode { kind: 0, key: [0; 32] };

/// The number of a fault, and its place where it has one.
#[derive(Debug, PartialEq)]
pub struct Fault {
    pub status: u32,
    pub at: u64,
}

fn told(status: u32, at: u64) -> Result<(), Fault> {
    if status == 0 { Ok(()) } else { Err(Fault { status, at }) }
}

pub fn hash(mode: &Mode, bytes: &[u8]) -> [u8; 32] {
    let mut out = [0; 32];
    told(unsafe { bw_hash(mode, bytes.as_ptr(), bytes.len(), 0, out.as_mut_ptr(), out.len()) }, 0).expect("a mode of a known kind");
    out
}

/// The hash and the combined encoding.
pub fn encode(mode: &Mode, bytes: &[u8]) -> Result<([u8; 32], Vec<u8>), Fault> {
    let (mut root, mut used) = ([0; 32], 0);
    let mut out = vec![0; unsafe { bw_slice_len(bytes.len() as u64, 0, u64::MAX) } as usize];
    told(unsafe { bw_encode(mode, bytes.as_ptr(), bytes.len(), out.as_mut_ptr(), out.len(), &mut used, &mut root) }, 0)?;
    out.truncate(used);
    Ok((root, out))
}

/// A slice of a combined encoding, of which nothing is checked.
pub fn cut_slice(text: &[u8], start: u64, len: u64) -> Result<Vec<u8>, Fault> {
    let (mut out, mut used) = (vec![0; text.len()], 0);
    told(unsafe { bw_cut_slice(text.as_ptr(), text.len(), start, len, out.as_mut_ptr(), out.len(), &mut used) }, 0)?;
    out.truncate(used);
    Ok(out)
}

/// A text that was accepted as a slice: it borrows the text, which can't change while it is there.
#[derive(Clone, Copy, Debug)]
pub struct Checked<'a> {
    pub start: u64,
    pub len: u64,
    text: &'a [u8],
}

impl<'a> Checked<'a> {
    pub fn new(mode: &Mode, root: &[u8; 32], start: u64, len: u64, text: &'a [u8]) -> Result<Checked<'a>, Fault> {
        let mut at = 0;
        let slice = Slice { mode: *mode, root: *root, start, len };
        told(unsafe { bw_check(&slice, text.as_ptr(), text.len(), &mut at) }, at)?;
        Ok(Checked { start, len, text })
    }

    pub fn text(&self) -> &'a [u8] {
        self.text
    }
}

/// A check of a text that comes in pieces, as the slice of `len` bytes from byte `start` on. (0, 2^64 - 1) is the combined encoding.
pub struct Feed {
    handle: Handle,
}

unsafe impl Send for Feed {}

impl Feed {
    pub fn new(mode: &Mode, root: &[u8; 32], start: u64, len: u64) -> Result<Feed, Fault> {
        let mut feed = Feed { handle: Handle { at: ptr::null_mut() } };
        told(unsafe { bw_feed_new(&Slice { mode: *mode, root: *root, start, len }, &mut feed.handle) }, 0)?;
        Ok(feed)
    }

    /// Takes the whole nodes that `bytes` begins with, appends the blob's bytes among them to `blob`, and answers how many bytes were taken.
    pub fn take(&mut self, bytes: &[u8], blob: &mut Vec<u8>) -> Result<usize, Fault> {
        let (had, mut taken, mut filled, mut at) = (blob.len(), 0, 0, 0);
        blob.resize(had + bytes.len(), 0);
        let out = &mut blob[had..];
        let status = unsafe { bw_feed_take(&mut self.handle, bytes.as_ptr(), bytes.len(), out.as_mut_ptr(), out.len(), &mut taken, &mut filled, &mut at) };
        blob.truncate(had + filled);
        told(status, at)?;
        Ok(taken)
    }

    /// What is said of the whole text, where `rest` ends it.
    pub fn finish(&mut self, rest: &[u8]) -> Result<(), Fault> {
        let mut at = 0;
        let status = unsafe { bw_feed_finish(&mut self.handle, rest.as_ptr(), rest.len(), &mut at) };
        told(status, at)
    }

    /// Checks what a reader has, up to its end, and appends the blob's bytes to `blob`.
    pub fn check(&mut self, mut from: impl Read, blob: &mut Vec<u8>) -> io::Result<Result<(), Fault>> {
        let (mut buffer, mut kept) = (vec![0; 1 << 16], 0);
        loop {
            let got = from.read(&mut buffer[kept..])?;
            if got == 0 {
                return Ok(self.finish(&buffer[..kept]));
            }
            let end = kept + got;
            match self.take(&buffer[..end], blob) {
                Ok(taken) => {
                    buffer.copy_within(taken..end, 0);
                    kept = end - taken;
                }
                Err(fault) => return Ok(Err(fault)),
            }
        }
    }
}

impl Drop for Feed {
    fn drop(&mut self) {
        unsafe { bw_free(&mut self.handle) }
    }
}

/// A seat of a store that threads share. It goes to another thread, and is used by one at a time: `Send`, not `Sync`.
pub struct Seat {
    handle: Handle,
    /// One for the seats of one store alone.
    store: Arc<()>,
}

unsafe impl Send for Seat {}

const OTHER_STORE: u32 = 1211;

impl Seat {
    fn empty(store: Arc<()>) -> Seat {
        Seat { handle: Handle { at: ptr::null_mut() }, store }
    }

    pub fn new(mode: &Mode, root: &[u8; 32], capacity: u32) -> Result<Seat, Fault> {
        let mut seat = Seat::empty(Arc::new(()));
        told(unsafe { bw_seat_new(mode, root, 0, capacity, &mut seat.handle) }, 0)?;
        Ok(seat)
    }

    pub fn split(&mut self) -> Result<Seat, Fault> {
        let mut other = Seat::empty(self.store.clone());
        told(unsafe { bw_seat_split(&mut self.handle, &mut other.handle) }, 0)?;
        Ok(other)
    }

    /// Takes in another seat of the store with its claims. A seat of another store is freed, and refused with status 1211.
    pub fn join(&mut self, mut other: Seat) -> Result<(), Fault> {
        // The library asks its caller for this.
        if !Arc::ptr_eq(&self.store, &other.store) {
            return told(OTHER_STORE, 0);
        }
        told(unsafe { bw_seat_join(&mut self.handle, &mut other.handle) }, 0)
    }

    pub fn take(&mut self, group: u32, want: u64) -> Result<u64, Fault> {
        let mut granted = 0;
        told(unsafe { bw_seat_take(&mut self.handle, group, want, &mut granted) }, 0)?;
        Ok(granted)
    }

    /// Stores all that the text has as this slice, so that it can be served: how many chunks and parents.
    pub fn commit(&mut self, start: u64, len: u64, text: &[u8]) -> Result<(u64, u64), Fault> {
        let (mut committed, mut parents, mut at) = (0, 0, 0);
        let status = unsafe { bw_seat_commit(&mut self.handle, start, len, text.as_ptr(), text.len(), &mut committed, &mut parents, &mut at) };
        told(status, at)?;
        Ok((committed, parents))
    }

    /// Ends the seat's claims among the mask.
    pub fn give(&mut self, group: u32, mask: u64) -> Result<u64, Fault> {
        let mut given = 0;
        told(unsafe { bw_seat_give(&mut self.handle, group, mask, &mut given) }, 0)?;
        Ok(given)
    }

    pub fn settle(&mut self, text: &[u8]) -> Result<(), Fault> {
        let mut at = 0;
        let status = unsafe { bw_seat_settle(&mut self.handle, text.as_ptr(), text.len(), &mut at) };
        told(status, at)
    }

    pub fn read(&mut self, from: u64, out: &mut [u8]) -> Result<(), Fault> {
        let mut missing = 0;
        let status = unsafe { bw_seat_read(&mut self.handle, from, out.as_mut_ptr(), out.len(), &mut missing) };
        told(status, missing)
    }

    pub fn serve_slice(&mut self, start: u64, len: u64, out: &mut Vec<u8>) -> Result<(), Fault> {
        let (mut used, mut lacking) = (0, Node::default());
        let status = unsafe { bw_seat_slice(&mut self.handle, start, len, out.as_mut_ptr(), out.len(), &mut used, &mut lacking) };
        told(status, lacking.number)?;
        out.truncate(used);
        Ok(())
    }

    pub fn finish(&mut self, out: &mut [u8]) -> Result<usize, Fault> {
        let mut used = 0;
        told(unsafe { bw_seat_finish(&mut self.handle, out.as_mut_ptr(), out.len(), &mut used) }, 0)?;
        Ok(used)
    }
}

impl Drop for Seat {
    fn drop(&mut self) {
        unsafe { bw_free(&mut self.handle) }
    }
}

fn main() {
    let blob: Vec<u8> = (0..1_000_003u32).map(|i| (i.wrapping_mul(2_654_435_761) >> 24) as u8).collect();
    let (root, text) = encode(&PLAIN, &blob).unwrap();
    assert_eq!(root, hash(&PLAIN, &blob));
    assert_eq!(hash(&PLAIN, &[])[..4], [0xaf, 0x13, 0x49, 0xb9]);
    let mut bad = text.clone();
    bad[text.len() / 2..][..5000].fill(0);
    let mut piece = cut_slice(&text, 5000, 10).unwrap();
    assert_eq!(Checked::new(&PLAIN, &root, 5000, 10, &piece).unwrap().text(), &piece[..]);
    *piece.last_mut().unwrap() ^= 1;
    assert_eq!(Checked::new(&PLAIN, &root, 5000, 10, &piece).unwrap_err().status, 502);
    let mut poured = Vec::new();
    assert_eq!(Feed::new(&PLAIN, &root, 5000, 10).unwrap().check(&piece[..], &mut poured).unwrap().unwrap_err().status, 502);
    assert!(poured.is_empty());
    let mut feed = Feed::new(&PLAIN, &root, 0, u64::MAX).unwrap();
    assert_eq!(feed.check(&text[..], &mut poured).unwrap(), Ok(()));
    assert!(poured == blob);
    assert_eq!(feed.finish(&[0]), Err(Fault { status: 503, at: text.len() as u64 }));
    let mut first = Seat::new(&PLAIN, &root, 1024).unwrap();
    assert_eq!(first.read(5, &mut [0]), Err(Fault { status: 1204, at: 5 }));
    first.settle(&cut_slice(&text, u64::MAX, 1).unwrap()).unwrap();
    let seats = std::thread::scope(|scope| {
        let threads = [0; 4].map(|_| {
            let mut seat = first.split().unwrap();
            let texts = [&bad, &text];
            scope.spawn(move || {
                for group in 0..16 {
                    let left = seat.take(group, u64::MAX).unwrap();
                    let start = u64::from(group) * 65_536;
                    let stored = left == 0 || texts.iter().any(|text| seat.commit(start, 65_536, &cut_slice(text, start, 65_536).unwrap()).is_ok());
                    if !stored {
                        seat.give(group, left).unwrap();
                    }
                }
                seat
            })
        });
        threads.map(|it| it.join().unwrap())
    });
    for seat in seats {
        first.join(seat).unwrap();
    }
    let alien = Seat::new(&PLAIN, &root, 1024).unwrap();
    assert_eq!(first.join(alien), Err(Fault { status: OTHER_STORE, at: 0 }));
    let mut served = vec![0; text.len()];
    first.serve_slice(0, u64::MAX, &mut served).unwrap();
    assert!(served == text);
    let mut found = vec![0; blob.len()];
    assert_eq!(first.finish(&mut found), Ok(blob.len()));
    assert!(found == blob);
}

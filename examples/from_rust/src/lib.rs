//! Sessions of the library that `include/falkirk.h` speaks of, for safe Rust.
use std::{collections::BTreeMap, ffi::c_void, fmt, ptr::null_mut, slice::from_raw_parts};

#[repr(C)]
struct Handle(*mut c_void);

#[repr(C)]
struct Bytes {
    at: *const u8,
    len: usize,
}

#[repr(C)]
struct Write {
    id: u64,
    put: bool,
    at: *const u8,
    len: usize,
}

// `include/falkirk.h` has the same; nothing compares them.
extern "C" {
    fn falkirk_open(session: *mut Handle, flow: *const u8, flow_len: usize, rests: bool) -> u32;
    fn falkirk_line(session: *mut Handle, line: *const u8, line_len: usize) -> u32;
    fn falkirk_answer_at(session: *mut Handle, out: *mut Bytes) -> bool;
    fn falkirk_close(session: *mut Handle);
    fn falkirk_gather(session: *mut Handle) -> u32;
    fn falkirk_put(session: *mut Handle, id: u64, bytes: *const u8, len: usize) -> u32;
    fn falkirk_open_from(session: *mut Handle, flow: *const u8, flow_len: usize, rests: bool) -> u32;
    fn falkirk_writes(session: *mut Handle, place: usize, out: *mut Write) -> bool;
}

/// Why a session is not opened, or answers no more.
#[derive(Debug, PartialEq, Eq)]
pub enum Fault {
    /// The text of the flow breaks a rule: `refused CODE line N`.
    Refused(String),
    /// Memory was refused, now or earlier.
    NoMemory,
    /// The records that were told are those of no session over this text.
    Records,
}

impl fmt::Display for Fault {
    fn fmt(&self, f: &mut fmt::Formatter<'_>) -> fmt::Result {
        match self {
            Fault::Refused(why) => f.write_str(why),
            Fault::NoMemory => f.write_str("no memory"),
            Fault::Records => f.write_str("no session goes on from the records"),
        }
    }
}

impl std::error::Error for Fault {}

/// A session over the text of a flow, which is closed where it is dropped.
pub struct Session(Handle);

// SAFETY: that a handle may go to another thread between calls is proved (`crates/falkirk_c`), and each call has it by `&mut`.
unsafe impl Send for Session {}

impl Session {
    /// Opens a session. With `rests` each line that is accepted ends with steps until none is enabled.
    pub fn open(flow: &str, rests: bool) -> Result<Session, Fault> {
        let mut session = Session(Handle(null_mut()));
        // SAFETY: the handle is new, and the pointer and the length are those of one borrowed `&str`.
        let code = unsafe { falkirk_open(&mut session.0, flow.as_ptr(), flow.len(), rests) };
        session.done(code)?;
        Ok(session)
    }

    /// Opens a session that lasts, which goes on from what was kept of one over the same text. Behind this and behind each line whoever
    /// holds it does its `writes` to what is kept. Records of no such session are answered somehow: see the header.
    pub fn open_from(kept: &BTreeMap<u64, Vec<u8>>, flow: &str, rests: bool) -> Result<Session, Fault> {
        let mut session = Session(Handle(null_mut()));
        // SAFETY: the handle is new, and each pointer and its length are those of one borrowed slice.
        unsafe {
            let code = falkirk_gather(&mut session.0);
            session.done(code)?;
            for (id, bytes) in kept {
                let code = falkirk_put(&mut session.0, *id, bytes.as_ptr(), bytes.len());
                session.done(code)?;
            }
            let code = falkirk_open_from(&mut session.0, flow.as_ptr(), flow.len(), rests);
            session.done(code)?;
        }
        Ok(session)
    }

    /// Does what a session that lasts wrote to what is kept of it.
    pub fn write_to(&mut self, kept: &mut BTreeMap<u64, Vec<u8>>) {
        let mut write = Write { id: 0, put: false, at: null_mut(), len: 0 };
        let mut place = 0;
        // SAFETY: both are borrowed here alone.
        while unsafe { falkirk_writes(&mut self.0, place, &mut write) } {
            if write.put {
                // SAFETY: so many bytes lie there until the next call.
                let bytes = if write.len == 0 { &[] } else { unsafe { from_raw_parts(write.at, write.len) } };
                kept.insert(write.id, bytes.to_vec());
            } else {
                kept.remove(&write.id);
            }
            place += 1;
        }
    }

    fn done(&mut self, code: u32) -> Result<(), Fault> {
        match code {
            0 => Ok(()),
            1 => Err(Fault::Refused(String::from_utf8_lossy(self.answer()).trim_end().to_string())),
            2 => Err(Fault::NoMemory),
            _ => Err(Fault::Records),
        }
    }

    /// Answers a line: some lines, of which the last begins with `done` or `refused`.
    pub fn ask(&mut self, line: &[u8]) -> Result<&[u8], Fault> {
        // SAFETY: the handle is this session's alone, and the pointer and the length are those of one borrowed slice.
        let code = unsafe { falkirk_line(&mut self.0, line.as_ptr(), line.len()) };
        self.done(code)?;
        Ok(self.answer())
    }

    /// The answer to the last line; of a session that was opened from what was kept, what the last line there showed.
    // The bytes stay until the next call, which the borrow keeps away.
    pub fn answer(&mut self) -> &[u8] {
        let mut out = Bytes { at: null_mut(), len: 0 };
        // SAFETY: both are borrowed here alone; where there are bytes they lie where the call says.
        unsafe {
            falkirk_answer_at(&mut self.0, &mut out);
            if out.len == 0 { &[] } else { from_raw_parts(out.at, out.len) }
        }
    }
}

impl Drop for Session {
    fn drop(&mut self) {
        // SAFETY: the handle is this session's alone.
        unsafe { falkirk_close(&mut self.0) }
    }
}

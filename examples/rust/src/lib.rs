//! Nodes of the C library, in Rust: a [`Node`] closes itself, refusals are errors, and what an answer
//! has is iterated over.

mod calls;

pub use calls::Bounds;
use calls::*;
use std::fmt;
use std::ptr::null_mut;

/// Why a call was not done, by the number that the C library gives it.
#[derive(Clone, Copy, Debug, PartialEq, Eq)]
pub enum Error {
    /// Memory ran out, in this call or in an earlier one: the node is to be loaded again.
    Memory,
    /// The line is none of a node, or the frame is none.
    Unreadable,
    /// A unit of what was kept is not the next one. It begins at this line, counted from 1.
    WrongUnit { line: u64 },
    /// Refused, for the cause of this number.
    Refused { code: i32 },
}

impl fmt::Display for Error {
    fn fmt(&self, f: &mut fmt::Formatter) -> fmt::Result {
        match self {
            Error::Memory => write!(f, "{}", words_of(MEMORY)),
            Error::Unreadable => write!(f, "{}", words_of(UNREADABLE)),
            Error::WrongUnit { line } => write!(f, "line {line}: {}", words_of(WRONG_UNIT)),
            Error::Refused { code } => write!(f, "{}", words_of(*code)),
        }
    }
}

impl std::error::Error for Error {}

/// What a code says, in words.
fn words_of(code: i32) -> String {
    let (mut out, mut len) = ([0; 100], 0);
    match unsafe { ndc_words(code, out.as_mut_ptr(), out.len() as u64, &mut len) } {
        DONE => String::from_utf8_lossy(&out[..len as usize]).into_owned(),
        _ => format!("code {code}"),
    }
}

/// What a code means, where it is none of a unit.
fn done(code: i32) -> Result<(), Error> {
    match code {
        DONE => Ok(()),
        SPENT | MEMORY => Err(Error::Memory),
        UNREADABLE => Err(Error::Unreadable),
        code => Err(Error::Refused { code }),
    }
}

/// The lines of an answer.
#[derive(Clone, Debug, PartialEq, Eq)]
pub struct Answer {
    text: Vec<u8>,
}

impl Answer {
    /// The lines, as bytes.
    pub fn as_bytes(&self) -> &[u8] {
        &self.text
    }

    /// The frames that are to be sent.
    pub fn frames(&self) -> impl Iterator<Item = &[u8]> {
        self.after(b"frame ")
    }

    /// The batches for an index, each with its domain and workflow before it.
    pub fn learned(&self) -> impl Iterator<Item = &[u8]> {
        self.after(b"learned ")
    }

    /// What follows a word in the lines that begin with it.
    fn after<'a>(&'a self, word: &'static [u8]) -> impl Iterator<Item = &'a [u8]> {
        self.text
            .split(|byte| *byte == b'\n')
            .filter_map(move |line| line.strip_prefix(word))
    }
}

/// A unit that is to be stored.
#[derive(Clone, Debug, PartialEq, Eq)]
pub struct Unit {
    pub number: u64,
    pub text: Vec<u8>,
}

/// A node. It is given back when it is dropped.
pub struct Node {
    handle: Handle,
}

// All that a node has is reached from its handle alone, and a `Node` has one owner.
unsafe impl Send for Node {}

impl Drop for Node {
    fn drop(&mut self) {
        unsafe { ndc_close(&mut self.handle) }
    }
}

impl Node {
    fn none() -> Node {
        Node {
            handle: Handle { at: null_mut() },
        }
    }

    /// The node of a name in a network of this header, in which nothing has happened.
    pub fn open(header: &[u8], name: &[u8], bounds: &Bounds) -> Result<Node, Error> {
        let mut node = Node::none();
        done(unsafe {
            ndc_open(
                &mut node.handle,
                header.as_ptr(),
                header.len() as u64,
                name.as_ptr(),
                name.len() as u64,
                bounds,
            )
        })?;
        Ok(node)
    }

    /// The node that was kept, by a store and the units after it; and how many bytes at the end are part of a unit.
    pub fn load(kept: &[u8], bounds: &Bounds) -> Result<(Node, u64), Error> {
        let (mut node, mut dropped, mut line) = (Node::none(), 0, 0);
        match unsafe {
            ndc_load(
                &mut node.handle,
                kept.as_ptr(),
                kept.len() as u64,
                bounds,
                &mut dropped,
                &mut line,
            )
        } {
            WRONG_UNIT => Err(Error::WrongUnit { line }),
            code => done(code).map(|()| (node, dropped)),
        }
    }

    /// Fetches the answer of a call, and then tells whether the call was done.
    fn answer(&mut self, code: i32, len: u64) -> Result<Answer, Error> {
        let (mut text, mut copied) = (vec![0; len as usize], 0);
        done(unsafe { ndc_reply(&mut self.handle, text.as_mut_ptr(), len, &mut copied) })?;
        done(code)?;
        Ok(Answer { text })
    }

    /// Takes a line, without its end.
    pub fn line(&mut self, line: &[u8]) -> Result<Answer, Error> {
        let mut len = 0;
        let code =
            unsafe { ndc_line(&mut self.handle, line.as_ptr(), line.len() as u64, &mut len) };
        self.answer(code, len)
    }

    /// Hears a frame.
    pub fn hear(&mut self, frame: &[u8]) -> Result<Answer, Error> {
        let mut len = 0;
        let code = unsafe {
            ndc_hear(
                &mut self.handle,
                frame.as_ptr(),
                frame.len() as u64,
                &mut len,
            )
        };
        self.answer(code, len)
    }

    /// What the node would say to the node of this name.
    pub fn ask(&mut self, name: &[u8]) -> Result<Answer, Error> {
        let mut len = 0;
        let code = unsafe { ndc_ask(&mut self.handle, name.as_ptr(), name.len() as u64, &mut len) };
        self.answer(code, len)
    }

    /// The next unit that is not stored: the same one, until it is told to be.
    pub fn change(&mut self) -> Result<Option<Unit>, Error> {
        let (mut number, mut len) = (0, 0);
        let code = unsafe { ndc_changes(&mut self.handle, &mut number, &mut len) };
        let text = self.answer(code, len)?.text;
        Ok((!text.is_empty()).then_some(Unit { number, text }))
    }

    /// All units up to this one are stored.
    pub fn stored(&mut self, unit: u64) -> Result<(), Error> {
        done(unsafe { ndc_stored(&mut self.handle, unit) })
    }

    /// The node whole, and the number of the last unit that is in it.
    pub fn store(&mut self) -> Result<Unit, Error> {
        let (mut number, mut len) = (0, 0);
        let code = unsafe { ndc_store(&mut self.handle, &mut number, &mut len) };
        let text = self.answer(code, len)?.text;
        Ok(Unit { number, text })
    }
}

//! The file of a log, what is written to it, and why nothing more is.
use crate::lane::Lane;
use std::error::Error;
use std::fmt;
use std::fs::File;
use std::io::{self, Seek, SeekFrom, Write};
use std::sync::Arc;

/// The last line of a log says how it ends.
const WHOLE: &[u8] = b"{\"ends\":\"whole\"}\n";
const EARLY: &[u8] = b"{\"ends\":\"early\"}\n";

/// A pipe takes this number of bytes at once, or none of them.
const PIECE: usize = 4096;

/// Why a log isn't whole. The file has a log of the run up to a moment.
#[derive(Debug)]
#[non_exhaustive]
pub enum Early {
    /// The log would have had more bytes than this limit.
    Limit(u64),
    /// This was the first write that failed. The file is as the last round left it, if the system let it be put back; else it
    /// may end in a line that begins with `!`. A pipe may end within a line.
    Write(io::Error),
}

impl fmt::Display for Early {
    fn fmt(&self, out: &mut fmt::Formatter<'_>) -> fmt::Result {
        match self {
            Early::Limit(limit) => write!(out, "the log ends early: its limit is {limit} bytes"),
            Early::Write(error) => write!(out, "the log ends early: {error}"),
        }
    }
}

impl Error for Early {
    fn source(&self) -> Option<&(dyn Error + 'static)> {
        match self {
            Early::Limit(_) => None,
            Early::Write(error) => Some(error),
        }
    }
}

/// The kind is that of the write, or `FileTooLarge` for the limit.
impl From<Early> for io::Error {
    fn from(early: Early) -> io::Error {
        let kind = match &early {
            Early::Limit(_) => io::ErrorKind::FileTooLarge,
            Early::Write(error) => error.kind(),
        };
        io::Error::new(kind, early)
    }
}

/// The file, and what is written to it.
#[derive(Debug)]
pub(crate) struct Writer {
    file: File,
    /// Whether it's a pipe, or another file without places: no line is written over.
    is_pipe: bool,
    /// The number of bytes that stay: the lines of calls that have ended.
    kept: u64,
    /// The lines behind those that stay: of the calls that were pending in the last round. A pipe gets them at the end.
    shown: Vec<u8>,
    /// The most bytes of the file.
    limit: u64,
    /// Whether nothing more is written, and why, if that was early.
    is_over: bool,
    early: Option<Early>,
    pub(crate) lanes: Vec<Arc<Lane>>,
    text: Vec<u8>,
    pending: Vec<u8>,
}

impl Writer {
    pub(crate) fn new(mut file: File, limit: Option<u64>) -> Writer {
        Writer {
            is_pipe: file.stream_position().is_err(),
            file,
            kept: 0,
            shown: Vec::new(),
            limit: limit.unwrap_or(u64::MAX),
            is_over: false,
            early: None,
            lanes: Vec::new(),
            text: Vec::new(),
            pending: Vec::new(),
        }
    }

    /// Writes the log up to a moment. The lines of pending calls come last, and the next round writes over them: what it
    /// writes is no shorter. While the text isn't whole its first byte is `!`. A pipe gets no line of a pending call.
    pub(crate) fn round(&mut self, moment: u64) {
        let (text, pending) = (&mut self.text, &mut self.pending);
        text.clear();
        pending.clear();
        self.lanes.retain(|lane| lane.write(moment, text, pending));
        // If no call has ended and no further one is pending, all is there
        if self.is_over || text.is_empty() && pending.len() == self.shown.len() {
            return;
        }
        let size = self.kept + (text.len() + pending.len() + EARLY.len()) as u64;
        if size > self.limit {
            self.stop(Early::Limit(self.limit));
            return;
        }
        let ended = text.len() as u64;
        let wrote = if self.is_pipe {
            append(&mut self.file, text)
        } else {
            text.extend_from_slice(pending);
            write_over(&mut self.file, self.kept, text)
        };
        match wrote {
            Ok(()) => {
                self.kept += ended;
                std::mem::swap(&mut self.shown, &mut self.pending);
            }
            Err(error) => {
                self.put_back();
                self.stop(Early::Write(error));
            }
        }
    }

    /// Writes nothing more.
    fn stop(&mut self, early: Early) {
        (self.is_over, self.early) = (true, Some(early));
    }

    /// Puts the file back to what the last round left. If that fails too, or it's a pipe, there is nothing to be done.
    fn put_back(&mut self) {
        if self.is_pipe {
            return;
        }
        let _ = write_over(&mut self.file, self.kept, &self.shown);
        let _ = self.file.set_len(self.kept + self.shown.len() as u64);
    }

    /// Ends the log after its last round, by the line that says how it ends. Whether it is whole.
    pub(crate) fn end(&mut self) -> Result<(), Early> {
        let early = self.early.take();
        self.is_over = true;
        if self.is_pipe && matches!(early, Some(Early::Write(_))) {
            return early.map_or(Ok(()), Err);
        }
        let line = if early.is_some() { EARLY } else { WHOLE };
        let end = self.kept + self.shown.len() as u64;
        if end + line.len() as u64 > self.limit {
            return Err(early.unwrap_or(Early::Limit(self.limit)));
        }
        let wrote = if self.is_pipe {
            self.shown.extend_from_slice(line);
            append(&mut self.file, &self.shown)
        } else {
            write_over(&mut self.file, end, line)
        };
        if let Err(error) = wrote {
            let _ = self.file.set_len(end);
            return Err(early.unwrap_or(Early::Write(error)));
        }
        early.map_or(Ok(()), Err)
    }
}

/// Writes a text at a place of a file. Until all of it is there its first byte is `!`.
fn write_over(file: &mut File, place: u64, text: &[u8]) -> io::Result<()> {
    let mut write = |at, text| {
        file.seek(SeekFrom::Start(at))?;
        file.write_all(text)
    };
    if let Some((first, rest)) = text.split_first() {
        write(place, b"!")?;
        write(place + 1, rest)?;
        write(place, &[*first])?;
    }
    Ok(())
}

/// Appends lines to a pipe, in pieces of whole lines: so a kill cuts none.
fn append(file: &mut File, mut lines: &[u8]) -> io::Result<()> {
    while !lines.is_empty() {
        let piece = &lines[..lines.len().min(PIECE)];
        let end = piece.iter().rposition(|byte| *byte == b'\n');
        let (piece, rest) = lines.split_at(end.map_or(piece.len(), |end| end + 1));
        file.write_all(piece)?;
        lines = rest;
    }
    Ok(())
}

//! Files that are read: whole, or by a window that goes over them.

use std::ffi::OsStr;
use std::fs::File;
use std::io::{self, Read};

use crate::failure::Failure;
use crate::progress::Progress;

/// How much a window holds at first. A record with its header, of whatever length that says,
/// has at most 65,538 bytes.
const ROOM: usize = 1 << 20;

/// More than this is never kept: the library's answers are below 2^32.
const MOST: usize = u32::MAX as usize;

/// A file, or standard input, with the name that lines have for it.
pub struct Input {
    pub name: String,
    reader: Box<dyn Read + Send>,
    size: Option<u64>,
}

impl Input {
    pub fn open(word: &OsStr) -> Result<Self, Failure> {
        if word == "-" {
            return Ok(Self {
                name: "standard input".into(),
                reader: Box::new(io::stdin()),
                size: None,
            });
        }
        let name = crate::words::plain(&word.to_string_lossy());
        let fault = |fault| Failure::unusable(&name, fault);
        let file = File::open(word).map_err(fault)?;
        let size = file.metadata().map_err(fault)?.len();
        Ok(Self {
            reader: Box::new(file),
            size: Some(size),
            name,
        })
    }

    /// All of its bytes.
    pub fn whole(self) -> Result<Vec<u8>, Failure> {
        let mut window = Window::new(self);
        window.fill(usize::MAX)?;
        Ok(window.into_rest())
    }
}

/// The bytes of a file from a place on: at least as many as were asked for, as long as the
/// file has them.
pub struct Window {
    input: Input,
    /// What was read stands from `start` to `end`; behind it is room.
    bytes: Vec<u8>,
    start: usize,
    end: usize,
    ended: bool,
    /// The place in the file of the first byte.
    pub place: u64,
    progress: Progress,
}

impl Window {
    pub fn new(input: Input) -> Self {
        Self {
            progress: Progress::new(input.size),
            input,
            bytes: Vec::new(),
            start: 0,
            end: 0,
            ended: false,
            place: 0,
        }
    }

    pub fn name(&self) -> &str {
        &self.input.name
    }

    /// Whether the file has no more bytes than `rest` has.
    pub fn is_whole(&self) -> bool {
        self.ended
    }

    /// The bytes from here on, as far as they were read.
    pub fn rest(&self) -> &[u8] {
        self.bytes.get(self.start..self.end).unwrap_or_default()
    }

    fn into_rest(mut self) -> Vec<u8> {
        let mut bytes = std::mem::take(&mut self.bytes);
        bytes.truncate(self.end);
        bytes.drain(..self.start.min(self.end));
        bytes
    }

    /// Steps over so many bytes.
    pub fn pass(&mut self, count: usize) {
        let count = count.min(self.rest().len());
        self.start += count;
        self.place += count as u64;
        self.progress.at(self.place);
    }

    /// Reads until there are so many bytes, or the file ends.
    pub fn fill(&mut self, least: usize) -> Result<(), Failure> {
        if self.ended || self.rest().len() >= least {
            return Ok(());
        }
        self.bytes.copy_within(self.start..self.end, 0);
        self.end -= self.start;
        self.start = 0;
        while !self.ended && self.end < least {
            if self.end == self.bytes.len() {
                self.grow(least)?;
            }
            self.read_some()?;
        }
        Ok(())
    }

    /// Makes more room: what a window has at first, then as much again; where all of a file
    /// is asked for, what it says that it has, and a byte for its end.
    fn grow(&mut self, least: usize) -> Result<(), Failure> {
        let read = self.place + self.end as u64;
        let left = self.input.size.and_then(|size| size.checked_sub(read));
        let left = left.and_then(|left| usize::try_from(left).ok());
        let room = match left {
            Some(left) if least == usize::MAX => left.saturating_add(1).max(ROOM),
            _ => self.end.max(ROOM),
        };
        if self.end > MOST || self.bytes.try_reserve_exact(room).is_err() {
            let fault = "too long to be kept in memory";
            return Err(Failure::unusable(&self.input.name, fault));
        }
        self.bytes.resize(self.end + room, 0);
        Ok(())
    }

    /// Reads once, into the room that there is.
    fn read_some(&mut self) -> Result<(), Failure> {
        let room = self.bytes.get_mut(self.end..).unwrap_or_default();
        match self.input.reader.read(room) {
            Ok(count) => {
                self.end += count;
                self.ended = count == 0;
            }
            Err(fault) if fault.kind() == io::ErrorKind::Interrupted => {}
            Err(fault) => return Err(self.fault(&fault)),
        }
        if self.end > ROOM {
            // all of a file is read, and none of it passed
            self.progress.at(self.place + self.end as u64);
        }
        Ok(())
    }

    fn fault(&self, fault: &io::Error) -> Failure {
        let place = self.place + self.rest().len() as u64;
        let name = &self.input.name;
        match place {
            0 => Failure::unusable(name, fault),
            _ => Failure::unusable(format_args!("{name}: byte {place}"), fault),
        }
    }

    /// Reads the next line, without its end, or up to so many bytes of it: nothing at the
    /// end of the file.
    pub fn line(&mut self, most: usize) -> Result<Option<usize>, Failure> {
        let mut searched = 0;
        loop {
            let rest = self.rest();
            let found = rest.iter().skip(searched).position(|byte| *byte == b'\n');
            if let Some(length) = found {
                return Ok(Some(searched + length));
            }
            searched = rest.len();
            if self.ended || searched > most {
                return Ok((searched > 0).then_some(searched));
            }
            self.fill(searched + 1)?;
        }
    }
}

#[cfg(test)]
mod tests {
    use super::*;

    /// Gives so many bytes, a few at a time, and then a fault.
    struct Torn(usize);

    impl Read for Torn {
        fn read(&mut self, room: &mut [u8]) -> io::Result<usize> {
            if self.0 == 0 {
                return Err(io::Error::other("the disk is gone"));
            }
            let count = self.0.min(7).min(room.len());
            self.0 -= count;
            room[..count].fill(b'a');
            Ok(count)
        }
    }

    fn torn(count: usize) -> Window {
        Window::new(Input {
            name: "torn".into(),
            reader: Box::new(Torn(count)),
            size: None,
        })
    }

    #[test]
    fn an_error_in_the_middle_names_the_place() {
        for count in [1, 7, 100] {
            let Err(Failure::Unusable(line)) = torn(count).fill(1_000) else {
                panic!("it is no failure");
            };
            assert_eq!(line, format!("torn: byte {count}: the disk is gone"));
        }
        let Err(Failure::Unusable(line)) = torn(0).line(10) else {
            panic!("it is no failure");
        };
        assert_eq!(line, "torn: the disk is gone");
    }

    #[test]
    fn a_window_goes_over_a_file() {
        let bytes: Vec<u8> = (0..3_000_000_u32).map(|number| number as u8).collect();
        let mut window = Window::new(Input {
            name: "bytes".into(),
            reader: Box::new(io::Cursor::new(bytes.clone())),
            size: None,
        });
        let mut read = Vec::new();
        loop {
            assert!(window.fill(70_000).is_ok());
            let count = window.rest().len().min(69_999);
            if count == 0 {
                break;
            }
            read.extend_from_slice(&window.rest()[..count]);
            window.pass(count);
            assert_eq!(window.place, read.len() as u64);
        }
        assert!(read == bytes);
    }
}

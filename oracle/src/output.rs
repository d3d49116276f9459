use std::io::{Error as IOError, Write};
use std::string::FromUtf8Error;
use crate::limits::Room; // zerwydd: limits 24 and 25

/// The Output API.
///
/// Handlebars uses this trait to define rendered output.
pub trait Output {
    fn write(&mut self, seg: &str) -> Result<(), IOError>;

    /// Designed to be used with `write!` macro.
    /// for backward compatibility and to avoid breakage the default implementation
    /// uses `format!` this may be not what you want.
    fn write_fmt(&mut self, args: std::fmt::Arguments<'_>) -> Result<(), IOError> {
        // Check if there is nothing to format to avoid allocation on case like
        // write!(out, "hey")?;
        if let Some(content) = args.as_str() {
            self.write(content)
        } else {
            self.write(&std::fmt::format(args))
        }
    }
}

pub struct WriteOutput<W: Write> {
    write: W,
}

impl<W: Write> Output for WriteOutput<W> {
    fn write(&mut self, seg: &str) -> Result<(), IOError> {
        self.write.write_all(seg.as_bytes())
    }

    fn write_fmt(&mut self, args: std::fmt::Arguments<'_>) -> Result<(), IOError> {
        self.write.write_fmt(args)
    }
}

impl<W: Write> WriteOutput<W> {
    pub fn new(write: W) -> WriteOutput<W> {
        WriteOutput { write }
    }
}

pub struct StringOutput {
    buf: String,
    room: Option<Room>, // zerwydd: limits 24 and 25
}

impl Output for StringOutput {
    fn write(&mut self, seg: &str) -> Result<(), IOError> {
        self.room.as_ref().map_or(Ok(()), |room| room.take(seg.len()))?; // zerwydd: limits 24 and 25
        self.buf.push_str(seg);
        Ok(())
    }
}

impl StringOutput {
    pub fn new() -> StringOutput {
        StringOutput {
            buf: String::with_capacity(8 * 1024),
            room: None, // zerwydd: a subexpression's text is no page
        }
    }
    // zerwydd {

    // limits 24 and 25: the room is shared by all that is written under one limit
    pub fn limited(room: Room) -> StringOutput {
        StringOutput {
            room: Some(room),
            ..StringOutput::new()
        }
    }
    // zerwydd }

    pub fn into_string(self) -> Result<String, FromUtf8Error> {
        Ok(self.buf)
    }
}

impl Default for StringOutput {
    fn default() -> Self {
        StringOutput::new()
    }
}

//! What a command reads and writes besides files, and how it ends.

use crate::failure::Failure;
use std::io::{Read, Write};

pub struct Streams<'a> {
    pub input: &'a mut dyn Read,
    pub output: &'a mut dyn Write,
    pub errors: &'a mut dyn Write,
    /// Whether `errors` is a terminal, where a progress line helps.
    pub terminal: bool,
}

impl Streams<'_> {
    /// A line on standard error. Nothing is left to do where that cannot be written.
    pub fn say(&mut self, text: &str) {
        let _ = writeln!(self.errors, "malxuqeed: {text}");
        let _ = self.errors.flush();
    }

    pub fn print(&mut self, text: std::fmt::Arguments) -> Result<(), Failure> {
        writeln!(self.output, "{text}").map_err(Failure::output)
    }

    pub fn put(&mut self, bytes: &[u8]) -> Result<(), Failure> {
        self.output.write_all(bytes).map_err(Failure::output)
    }

    pub fn flush(&mut self) -> Result<(), Failure> {
        self.output.flush().map_err(Failure::output)
    }
}

/// How a command ended that could read and write all it had to.
#[derive(Clone, Copy, Debug, PartialEq, Eq)]
pub enum Ended {
    Well,
    Refused,
    /// An audit that could not read something; it has said so.
    Unread,
}

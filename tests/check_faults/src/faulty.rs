//! Readers and writers that fail.

use std::alloc::Global;
use std::io::{Error, ErrorKind, Read, Result, Write};

/// Gives a few bytes a call, and an error at one call.
#[derive(Drop)]
pub struct FaultyReader<'a> {
    pub rest: &'a [u8],
    /// The most bytes of a call.
    pub step: usize,
    /// How many calls come before the one that fails.
    pub before: usize,
    pub kind: ErrorKind,
}

impl<'a> Read for FaultyReader<'a> {
    fn read(&mut self, buf: &mut [u8]) -> Result<usize> {
        if self.before == 0 {
            return Err(Error::from(self.kind));
        }
        self.before -= 1;
        let count = buf.len().min(self.step).min(self.rest.len());
        let (given, rest) = self.rest.split_at(count);
        buf[..count].copy_from_slice(given);
        self.rest = rest;
        Ok(count)
    }
}

/// How a writer fails.
#[derive(Clone, Copy, PartialEq, Eq)]
pub enum Failure {
    Error,
    /// It takes no byte.
    Full,
}

/// Takes a few bytes a call, and fails at one call.
#[derive(Drop)]
pub struct FaultyWriter {
    pub written: Vec<u8>,
    pub step: usize,
    pub before: usize,
    pub failure: Failure,
}

impl FaultyWriter {
    pub fn new(alloc: Global, step: usize, before: usize, failure: Failure) -> FaultyWriter {
        FaultyWriter {
            written: Vec::new(alloc),
            step,
            before,
            failure,
        }
    }
}

impl Write for FaultyWriter {
    fn write(&mut self, buf: &[u8]) -> Result<usize> {
        if self.before == 0 {
            return match self.failure {
                Failure::Error => Err(Error::from(ErrorKind::Interrupted)),
                Failure::Full => Ok(0),
            };
        }
        self.before -= 1;
        let count = buf.len().min(self.step);
        self.written.extend_from_slice(&buf[..count])?;
        Ok(count)
    }

    fn flush(&mut self) -> Result<()> {
        if self.before == 0 {
            return Err(Error::from(ErrorKind::Interrupted));
        }
        Ok(())
    }
}

// SPDX-License-Identifier: Apache-2.0
//! A look ahead into what is read.
use std::io::{self, Read};

/// Input of which as much is held as was looked at.
pub struct Window<R> {
    from: R,
    held: Vec<u8>,
    start: usize,
    /// Bytes taken so far.
    at: u64,
}

const CHUNK: usize = 1 << 16;

impl<R: Read> Window<R> {
    pub fn new(from: R) -> Self {
        Self {
            from,
            held: Vec::new(),
            start: 0,
            at: 0,
        }
    }

    /// The next `n` bytes, or fewer at the end.
    pub fn look(&mut self, n: usize) -> io::Result<&[u8]> {
        while self.held.len() - self.start < n {
            if self.start > CHUNK {
                self.held.drain(..self.start);
                self.start = 0;
            }
            let length = self.held.len();
            self.held.resize(length + CHUNK, 0);
            let got = read(&mut self.from, &mut self.held[length..]);
            self.held.truncate(length + got.as_ref().map_or(0, |n| *n));
            if got? == 0 {
                break;
            }
        }
        let end = self.held.len().min(self.start + n);
        Ok(&self.held[self.start..end])
    }

    /// Goes on by `n` bytes that were looked at.
    pub fn take(&mut self, n: usize) {
        self.start += n;
        self.at += n as u64;
    }

    /// Bytes taken so far.
    pub fn at(&self) -> u64 {
        self.at
    }
}

fn read(from: &mut impl Read, to: &mut [u8]) -> io::Result<usize> {
    loop {
        match from.read(to) {
            Err(e) if e.kind() == io::ErrorKind::Interrupted => {}
            other => return other,
        }
    }
}

//! `replay_twin`: what `monitor replay` does, from standard input to standard output, in plain Rust without proofs, as it is written for speed.

mod codes;
mod lines;
mod out;
mod places;
mod requests;
mod system;

use lines::answer;
use out::Out;
use std::fs::File;
use std::io::{Read, Write};
use std::mem::ManuallyDrop;
use std::os::fd::FromRawFd;
use std::process::ExitCode;
use system::System;

const BLOCK: usize = 65_536;
const LONGEST: usize = 1024;
// Eight bytes can be read wherever a line begins.
const BEHIND: usize = 8;

unsafe extern "C" {
    fn memchr(bytes: *const u8, byte: i32, count: usize) -> *const u8;
}

/// A bit of each newline.
#[cfg(target_arch = "x86_64")]
#[inline(always)]
fn newlines(bytes: &[u8; 16]) -> i32 {
    use std::arch::x86_64::{_mm_cmpeq_epi8, _mm_loadu_si128, _mm_movemask_epi8, _mm_set1_epi8};
    unsafe { _mm_movemask_epi8(_mm_cmpeq_epi8(_mm_loadu_si128(bytes.as_ptr().cast()), _mm_set1_epi8(10))) }
}

#[cfg(not(target_arch = "x86_64"))]
fn newlines(bytes: &[u8; 16]) -> i32 {
    (0..16).fold(0, |all, at| all | i32::from(bytes[at] == b'\n') << at)
}

/// Mostly a line ends within the first 16 bytes, which are looked at at once.
#[inline(always)]
fn line_end(bytes: &[u8]) -> Option<usize> {
    match bytes.first_chunk().map(newlines) {
        Some(ends) if ends != 0 => Some(ends.trailing_zeros() as usize),
        _ => far_line_end(bytes),
    }
}

fn far_line_end(bytes: &[u8]) -> Option<usize> {
    let at = unsafe { memchr(bytes.as_ptr(), i32::from(b'\n'), bytes.len()) };
    if at.is_null() { None } else { Some(at as usize - bytes.as_ptr() as usize) }
}

/// A standard stream without the buffer of std.
fn stream(number: i32) -> ManuallyDrop<File> {
    ManuallyDrop::new(unsafe { File::from_raw_fd(number) })
}

/// What was read and isn't answered yet: `block[at..end]`. The rest of a line that is too long is skipped, and answered at its end.
struct Lines {
    block: Vec<u8>,
    at: usize,
    end: usize,
    skips: bool,
}

impl Lines {
    /// Answers the lines whose ends were read.
    fn answer_whole(&mut self, system: &mut Option<System>, out: &mut Out) {
        while let Some(count) = line_end(&self.block[self.at..self.end]) {
            self.answer_one(count, system, out);
            self.at += count + 1;
        }
    }

    fn answer_one(&mut self, count: usize, system: &mut Option<System>, out: &mut Out) {
        if std::mem::take(&mut self.skips) || count > LONGEST {
            out.text(b"bad line\n");
        } else {
            answer(&self.block[self.at..], count, system, out);
        }
    }

    /// Brings what is left to the front, for more behind it.
    fn make_room(&mut self) {
        self.skips |= self.end - self.at > LONGEST;
        if self.skips {
            self.at = self.end;
        }
        self.block.copy_within(self.at..self.end, 0);
        (self.at, self.end) = (0, self.end - self.at);
    }
}

fn replay(source: &mut File, sink: &mut File) -> std::io::Result<()> {
    let mut lines = Lines { block: vec![0; BLOCK + LONGEST + BEHIND], at: 0, end: 0, skips: false };
    let (mut system, mut out) = (None, Out::new(2 * BLOCK));
    loop {
        let count = source.read(&mut lines.block[lines.end..LONGEST + BLOCK])?;
        lines.end += count;
        lines.answer_whole(&mut system, &mut out);
        if count == 0 && (lines.skips || lines.at < lines.end) {
            lines.answer_one(lines.end - lines.at, &mut system, &mut out);
        }
        sink.write_all(out.bytes())?;
        if count == 0 {
            return Ok(());
        }
        out.clear();
        lines.make_room();
    }
}

fn main() -> ExitCode {
    match replay(&mut stream(0), &mut stream(1)) {
        Ok(()) => ExitCode::SUCCESS,
        Err(_) => ExitCode::FAILURE,
    }
}

//! What IN reads. The Rust's IN reads standard input, so the oracle puts a file in memory on descriptor 0 and lays
//! each case's bytes there.

use std::ffi::{c_char, c_int, c_uint};
use std::fs::File;
use std::io::{self, BufRead, Seek};
use std::os::fd::{AsRawFd, FromRawFd};
use std::os::unix::fs::FileExt;

// std has neither; the C library that it links does, on every Linux.
extern "C" {
    fn memfd_create(name: *const c_char, flags: c_uint) -> c_int;
    fn dup2(old: c_int, new: c_int) -> c_int;
}

pub struct Feed {
    /// The file on descriptor 0, under its own descriptor: the two share one place in it.
    file: File,
    given: usize,
}

impl Feed {
    pub fn open() -> io::Result<Self> {
        // SAFETY: the name ends in a zero byte and the call keeps no hold of it.
        let descriptor = unsafe { memfd_create(c"input".as_ptr(), 0) };
        if descriptor < 0 {
            return Err(io::Error::last_os_error());
        }
        // SAFETY: the descriptor is open, and nobody else has it.
        let file = unsafe { File::from_raw_fd(descriptor) };
        // SAFETY: nothing has read standard input before, and nothing else holds descriptor 0.
        if unsafe { dup2(file.as_raw_fd(), 0) } < 0 {
            return Err(io::Error::last_os_error());
        }
        Ok(Feed { file, given: 0 })
    }

    /// Gives standard input these bytes and then its end.
    ///
    /// For no bytes there is nothing to do: `take_back` has left std's buffer empty and the file read to its end.
    pub fn give(&mut self, bytes: &[u8]) -> io::Result<()> {
        self.given = bytes.len();
        if !bytes.is_empty() {
            self.file.write_all_at(bytes, 0)?;
            self.file.set_len(bytes.len() as u64)?;
            self.file.rewind()?;
        }
        Ok(())
    }

    /// Reads what std's buffer and the file still hold, and tells how many of the given bytes were read before that.
    pub fn take_back(&mut self) -> io::Result<usize> {
        if self.given == 0 {
            return Ok(0);
        }
        let mut standard_input = io::stdin().lock();
        let mut left = 0;
        loop {
            let held = standard_input.fill_buf()?.len();
            if held == 0 {
                return Ok(self.given - left);
            }
            standard_input.consume(held);
            left += held;
        }
    }
}

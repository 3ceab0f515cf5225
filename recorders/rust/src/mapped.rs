//! A file that is written through a window of it in memory: what was put there outlives the process, however it ends.

use std::fs::{File, OpenOptions};
use std::io;
use std::os::fd::AsRawFd;
use std::path::Path;

const WINDOW: usize = 1 << 20;

mod system {
    use std::ffi::{c_int, c_void};

    pub const READ_AND_WRITE: c_int = 3;
    pub const SHARED: c_int = 1;

    extern "C" {
        pub fn mmap(address: *mut c_void, size: usize, access: c_int, flags: c_int, file: c_int, offset: i64) -> *mut c_void;
        pub fn munmap(address: *mut c_void, size: usize) -> c_int;
    }
}

/// The file, and the window that bytes go to. If the file has no more room nothing more is written.
pub struct MappedFile {
    file: File,
    window: *mut u8,
    start: usize,
    at: usize,
}

// SAFETY: the window is memory of the process, which any thread may write while it has the file by `&mut`.
unsafe impl Send for MappedFile {}

impl MappedFile {
    /// Makes the file, or empties it.
    pub fn create(path: &Path) -> io::Result<MappedFile> {
        let file = OpenOptions::new().read(true).write(true).create(true).truncate(true).open(path)?;
        let window = map(&file, 0)?;
        Ok(MappedFile { file, window, start: 0, at: 0 })
    }

    /// Adds bytes. Those that no room is left for are lost, and all after them.
    pub fn put(&mut self, mut bytes: &[u8]) {
        while !bytes.is_empty() && !self.window.is_null() {
            let part = bytes.len().min(WINDOW - self.at);
            // SAFETY: the window has WINDOW bytes, and `at + part` is at most that.
            unsafe { std::ptr::copy_nonoverlapping(bytes.as_ptr(), self.window.add(self.at), part) };
            self.at += part;
            bytes = &bytes[part..];
            if self.at == WINDOW {
                self.next_window();
            }
        }
    }

    fn next_window(&mut self) {
        self.unmap();
        self.start += WINDOW;
        self.at = 0;
        match map(&self.file, self.start) {
            Ok(window) => self.window = window,
            Err(error) => eprintln!("hhrec: {error}: the recording ends here"),
        }
    }

    fn unmap(&mut self) {
        // SAFETY: the window was mapped with this size, and is given up.
        unsafe { system::munmap(self.window.cast(), WINDOW) };
        self.window = std::ptr::null_mut();
    }

    /// Cuts the file to what was put. Nothing is put after this.
    pub fn close(&mut self) {
        if !self.window.is_null() {
            self.unmap();
            if let Err(error) = self.file.set_len((self.start + self.at) as u64) {
                eprintln!("hhrec: {error}");
            }
        }
    }
}

fn map(file: &File, start: usize) -> io::Result<*mut u8> {
    file.set_len((start + WINDOW) as u64)?;
    // SAFETY: a new mapping of a file that has these bytes; no other memory is touched.
    let window = unsafe {
        system::mmap(std::ptr::null_mut(), WINDOW, system::READ_AND_WRITE, system::SHARED, file.as_raw_fd(), start as i64)
    };
    if window as isize == -1 {
        return Err(io::Error::last_os_error());
    }
    Ok(window.cast())
}

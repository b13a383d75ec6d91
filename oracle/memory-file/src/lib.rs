//! A file in memory. It may be given any length, and only the pages written take room.

use std::{
    ffi::{c_char, c_int, c_uint},
    fs::File,
    io,
    os::fd::FromRawFd,
};

extern "C" {
    fn memfd_create(name: *const c_char, flags: c_uint) -> c_int;
}

pub fn memory_file() -> io::Result<File> {
    // SAFETY: the name is a C string, and the descriptor, once known to be one, is owned by the
    // file alone.
    unsafe {
        let descriptor = memfd_create(c"store".as_ptr(), 0);
        if descriptor < 0 {
            return Err(io::Error::last_os_error());
        }
        Ok(File::from_raw_fd(descriptor))
    }
}

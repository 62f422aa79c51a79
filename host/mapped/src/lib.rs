//! Zeroed buffers of any length, up to what the longest READ or WRITE asks for: address space, which
//! takes memory only where a byte is written. Its `unsafe` code is in the module `pages`.

#![deny(unsafe_code)]

use pages::Pages;
use std::io;
use std::ops::{Deref, DerefMut};

/// A buffer of zeros.
pub struct Mapped {
    /// None for a buffer without bytes: no mapping is empty.
    pages: Option<Pages>,
}

impl Mapped {
    /// So many zeros. An error says that the system has no such stretch of addresses to give.
    pub fn zeros(length: usize) -> io::Result<Mapped> {
        let pages = if length == 0 { None } else { Some(Pages::map(length)?) };
        Ok(Mapped { pages })
    }
}

impl Deref for Mapped {
    type Target = [u8];

    fn deref(&self) -> &[u8] {
        self.pages.as_ref().map_or(&[], Pages::bytes)
    }
}

impl DerefMut for Mapped {
    fn deref_mut(&mut self) -> &mut [u8] {
        self.pages.as_mut().map_or(&mut [], Pages::bytes_mut)
    }
}

/// The system's calls.
///
/// Why they are sound: an anonymous private mapping is a stretch of zeros of the length asked for
/// that nothing else uses, it is no longer than `isize::MAX`, and it stays until `Drop` gives it back.
/// Its bytes are borrowed as the `Pages` are.
mod pages {
    #![allow(unsafe_code)]

    use std::ffi::{c_int, c_void};
    use std::{io, ptr, slice};

    const READ_AND_WRITE: c_int = 0x1 | 0x2;
    /// Private, anonymous, and no memory set aside for it.
    const WITHOUT_MEMORY: c_int = 0x02 | 0x20 | 0x4000;

    extern "C" {
        fn mmap(
            address: *mut c_void,
            length: usize,
            protection: c_int,
            flags: c_int,
            file: c_int,
            offset: i64,
        ) -> *mut c_void;
        fn munmap(address: *mut c_void, length: usize) -> c_int;
    }

    pub struct Pages {
        start: *mut c_void,
        length: usize,
    }

    // The mapping belongs to the `Pages` alone, and no thread has more right to it than another.
    unsafe impl Send for Pages {}
    unsafe impl Sync for Pages {}

    impl Pages {
        /// So many zeros, at least one.
        pub fn map(length: usize) -> io::Result<Pages> {
            if length > isize::MAX as usize {
                return Err(io::ErrorKind::OutOfMemory.into());
            }
            let start =
                unsafe { mmap(ptr::null_mut(), length, READ_AND_WRITE, WITHOUT_MEMORY, -1, 0) };
            if start as isize == -1 {
                return Err(io::Error::last_os_error());
            }
            Ok(Pages { start, length })
        }

        pub fn bytes(&self) -> &[u8] {
            unsafe { slice::from_raw_parts(self.start.cast(), self.length) }
        }

        pub fn bytes_mut(&mut self) -> &mut [u8] {
            unsafe { slice::from_raw_parts_mut(self.start.cast(), self.length) }
        }
    }

    impl Drop for Pages {
        fn drop(&mut self) {
            let freed = unsafe { munmap(self.start, self.length) };
            assert_eq!(freed, 0, "a mapping of {} bytes", self.length);
        }
    }
}

#[cfg(test)]
mod tests {
    use super::Mapped;

    /// As many bytes as the longest WRITE brings: 2,048 for each of 4,294,967,295 sectors.
    const LONGEST: usize = 2_048 * u32::MAX as usize;

    #[test]
    fn a_buffer_has_its_length_and_is_zero() {
        for length in [0, 1, 2_048, 65_536 * 2_048, LONGEST] {
            let mut buffer = Mapped::zeros(length).expect("address space");
            assert_eq!(buffer.len(), length);
            let Some(last) = length.checked_sub(1) else { continue };
            assert_eq!((buffer[0], buffer[last / 2], buffer[last]), (0, 0, 0));
            buffer[last] = 7;
            assert_eq!(buffer[last], 7);
        }
    }

    #[test]
    fn addresses_are_given_back() {
        for _ in 0..100 {
            drop(Mapped::zeros(LONGEST).expect("address space"));
        }
    }

    #[test]
    fn no_system_has_so_many_addresses() {
        for length in [isize::MAX as usize, isize::MAX as usize + 1, usize::MAX] {
            assert!(Mapped::zeros(length).is_err());
        }
    }
}

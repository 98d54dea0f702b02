//! The same five calls in a C static library, for speed. Which library is linked
//! is said by RUSTFLAGS.

use crate::engine::Answer;
use crate::gen::Calls;

extern "C" {
    fn pz_load(master: *const u8, master_len: usize) -> Answer;
    fn pz_run(
        master: *const u8,
        master_len: usize,
        allowance: i64,
        scratch: *mut u8,
        scratch_len: usize,
        rows: *mut u8,
        rows_len: usize,
    ) -> Answer;
    fn pz_reprint(
        master: *const u8,
        master_len: usize,
        allowance: i64,
        page: i64,
        scratch: *mut u8,
        scratch_len: usize,
        rows: *mut u8,
        rows_len: usize,
        sections: *mut u8,
        sections_len: usize,
    ) -> Answer;
    fn pz_write(
        list: *const u8,
        list_len: usize,
        text: *const u8,
        text_len: usize,
        out: *mut u8,
        out_len: usize,
    ) -> Answer;
    fn pz_read_back(
        bytes: *const u8,
        bytes_len: usize,
        list: *mut u8,
        list_len: usize,
        text: *mut u8,
        text_len: usize,
    ) -> Answer;
}

/// The linked library.
pub struct Host;

// SAFETY of every call below: each pointer goes with the length of the slice it
// came from, and the library touches nothing outside and keeps no pointer.
impl Calls for Host {
    fn load(&self, master: &[u8]) -> Answer {
        unsafe { pz_load(master.as_ptr(), master.len()) }
    }

    fn run(&self, master: &[u8], allowance: i64, scratch: &mut [u8], rows: &mut [u8]) -> Answer {
        unsafe {
            pz_run(
                master.as_ptr(),
                master.len(),
                allowance,
                scratch.as_mut_ptr(),
                scratch.len(),
                rows.as_mut_ptr(),
                rows.len(),
            )
        }
    }

    fn reprint(
        &self,
        master: &[u8],
        allowance: i64,
        page: i64,
        scratch: &mut [u8],
        rows: &mut [u8],
        sections: &mut [u8],
    ) -> Answer {
        unsafe {
            pz_reprint(
                master.as_ptr(),
                master.len(),
                allowance,
                page,
                scratch.as_mut_ptr(),
                scratch.len(),
                rows.as_mut_ptr(),
                rows.len(),
                sections.as_mut_ptr(),
                sections.len(),
            )
        }
    }

    fn write(&self, list: &[u8], text: &[u8], out: &mut [u8]) -> Answer {
        unsafe {
            pz_write(
                list.as_ptr(),
                list.len(),
                text.as_ptr(),
                text.len(),
                out.as_mut_ptr(),
                out.len(),
            )
        }
    }

    fn read_back(&self, bytes: &[u8], list: &mut [u8], text: &mut [u8]) -> Answer {
        unsafe {
            pz_read_back(
                bytes.as_ptr(),
                bytes.len(),
                list.as_mut_ptr(),
                list.len(),
                text.as_mut_ptr(),
                text.len(),
            )
        }
    }
}

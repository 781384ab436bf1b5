//! Answers read by the decoder that asn1c makes of asn1/rc004.asn1, through asn1/answer.c. What it decodes lies on the
//! heap until all of it is told, and is then freed: both are part of what is measured.

use crate::gate::{Gate, Reader, Told, Value, ANSWER_WORDS};
use crate::words::{value, COUNT, MEMORY_DATA_WORDS, RESOURCE_WORDS, TAG_WORDS};
use std::ffi::c_void;
use std::ptr::null_mut;
use std::slice;

extern "C" {
    fn rc004_read(octets: *const u8, length: usize, answer: *mut Asn1c) -> i32;
    fn rc004_free(answer: *mut Asn1c);
    fn rc004_tag(answer: *const Asn1c, place: usize, words: *mut u64);
    fn rc004_memory_data(answer: *const Asn1c, place: usize, words: *mut u64);
    fn rc004_resource(answer: *const Asn1c, place: usize, words: *mut u64);
}

/// The answer that was read last; asn1/answer.c declares the same.
#[repr(C)]
pub struct Asn1c {
    words: Words<ANSWER_WORDS>,
    kind: *mut c_void,
    decoded: *mut c_void,
}

impl Default for Asn1c {
    fn default() -> Asn1c {
        Asn1c {
            words: Words([0; ANSWER_WORDS]),
            kind: null_mut(),
            decoded: null_mut(),
        }
    }
}

impl Reader for Asn1c {
    #[inline(always)]
    fn read(&mut self, octets: &[u8], gate: &mut impl Gate) -> Option<()> {
        // SAFETY: the length is that of the octets, and what was decoded is freed once, after the last look at it.
        unsafe {
            let kind = rc004_read(octets.as_ptr(), octets.len(), self);
            if kind >= 0 {
                gate.is_told(&self.words);
            }
            match kind {
                128 => self.tell_list::<RESOURCE_WORDS>(rc004_resource, gate),
                133 | 197 => self.tell_list::<MEMORY_DATA_WORDS>(rc004_memory_data, gate),
                134 | 198 => self.tell_list::<TAG_WORDS>(rc004_tag, gate),
                _ => {}
            }
            rc004_free(self);
            (kind >= 0).then_some(())
        }
    }
}

type ReadEntry = unsafe extern "C" fn(*const Asn1c, usize, *mut u64);

impl Asn1c {
    /// Goes over the entries of a list.
    #[inline(always)]
    unsafe fn tell_list<const WORDS: usize>(&self, read: ReadEntry, gate: &mut impl Gate) {
        let mut entry = Words([0; WORDS]);
        for place in 0..self.words.0[COUNT] as usize {
            read(self, place, entry.0.as_mut_ptr());
            gate.is_told(&entry);
        }
    }
}

/// Words in which a start is an address.
#[repr(transparent)]
struct Words<const WORDS: usize>([u64; WORDS]);

impl<const WORDS: usize> Told for Words<WORDS> {
    fn value(&self, _: &[u8]) -> Value {
        value(&self.0, |start, length| match length {
            0 => Vec::new(),
            // SAFETY: told while what was decoded is not freed yet.
            _ => unsafe { slice::from_raw_parts(start as *const u8, length).to_vec() },
        })
    }
}

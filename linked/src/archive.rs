//! The functions of libcapi.a, called with slices and their own lengths: the only unsafe code of this package.
//! The declarations are those of include/taxeedhuul.h. Of a caller the archive asks that a unit's memory is what its
//! functions left; `Unit` keeps it private, and takes other slices only where they have not a unit's lengths.

use crate::calls::{Fit, Slices, Writing};

#[rustfmt::skip]
mod library {
    extern "C" {
        pub fn taxeedhuul_start(
            head: *mut u64, head_length: usize, table: *mut u64, table_length: usize, memory: *mut u8, memory_length: usize,
            version: u8, allocation: bool, passwords: bool,
        ) -> i32;
        pub fn taxeedhuul_respond(
            head: *mut u64, head_length: usize, table: *mut u64, table_length: usize, memory: *mut u8, memory_length: usize,
            port: u8, request: *const u8, request_length: usize, answer: *mut u8, answer_length: usize,
        ) -> i32;
        pub fn taxeedhuul_fit(
            head: *mut u64, head_length: usize, table: *mut u64, table_length: usize, memory: *mut u8, memory_length: usize,
            tag: u64, size: u32, mode: u8, spf: bool, locked: bool, password: u64, first: *const u8, first_length: usize,
        ) -> i32;
        pub fn taxeedhuul_write_resource_information(
            area: *mut u8, area_length: usize, version: u8, tags: *const u64, tags_length: usize,
        ) -> i32;
        pub fn taxeedhuul_write_allocate(
            area: *mut u8, area_length: usize, version: u8, tag: u64, mode: u8, size: u32, locked: bool, password: u64,
            initial: *const u8, initial_length: usize,
        ) -> i32;
        pub fn taxeedhuul_write_free(
            area: *mut u8, area_length: usize, version: u8, tag: u64, locked: bool, password: u64,
        ) -> i32;
        pub fn taxeedhuul_write_read(
            area: *mut u8, area_length: usize, version: u8, tag: u64, locked: bool, password: u64,
        ) -> i32;
        pub fn taxeedhuul_write_write(
            area: *mut u8, area_length: usize, version: u8, tag: u64, locked: bool, password: u64, bytes: *const u8,
            bytes_length: usize,
        ) -> i32;
        pub fn taxeedhuul_write_bulk_read(
            area: *mut u8, area_length: usize, version: u8, locked: bool, tags: *const u64, tags_length: usize,
            passwords: *const u64, passwords_length: usize,
        ) -> i32;
        pub fn taxeedhuul_write_bulk_write(
            area: *mut u8, area_length: usize, version: u8, locked: bool, tags: *const u64, tags_length: usize,
            passwords: *const u64, passwords_length: usize, starts: *const usize, starts_length: usize,
            lengths: *const usize, lengths_length: usize, bytes: *const u8, bytes_length: usize,
        ) -> i32;
        pub fn taxeedhuul_read_answer(octets: *const u8, octets_length: usize, fields: *mut u64, fields_length: usize) -> i32;
        pub fn taxeedhuul_read_tag(
            octets: *const u8, octets_length: usize, at: usize, fields: *mut u64, fields_length: usize,
        ) -> i32;
        pub fn taxeedhuul_read_memory_data(
            octets: *const u8, octets_length: usize, at: usize, fields: *mut u64, fields_length: usize,
        ) -> i32;
        pub fn taxeedhuul_read_resource(
            octets: *const u8, octets_length: usize, at: usize, fields: *mut u64, fields_length: usize,
        ) -> i32;
    }
}

/// Where a slice stands; the header lets an empty one be NULL.
fn to_read<Element>(slice: &[Element]) -> *const Element {
    if slice.is_empty() {
        return std::ptr::null();
    }
    slice.as_ptr()
}

fn to_change<Element>(slice: &mut [Element]) -> *mut Element {
    if slice.is_empty() {
        return std::ptr::null_mut();
    }
    slice.as_mut_ptr()
}

// ---- the unit

/// Slices that start left, or that have not a unit's lengths.
#[derive(Clone)]
pub struct Unit(Slices);

/// Makes a unit in the slices. If it is refused, they come back with the result, as the archive left them.
pub fn start(
    mut slices: Slices,
    version: u8,
    allocation: bool,
    passwords: bool,
) -> Result<Unit, (i32, Slices)> {
    let result = unsafe {
        library::taxeedhuul_start(
            to_change(&mut slices.head),
            slices.head.len(),
            to_change(&mut slices.table),
            slices.table.len(),
            to_change(&mut slices.memory),
            slices.memory.len(),
            version,
            allocation,
            passwords,
        )
    };
    match result {
        0 => Ok(Unit(slices)),
        _ => Err((result, slices)),
    }
}

impl Unit {
    /// Slices of which one has not a unit's length: nothing is asked of their content.
    pub fn of_other_lengths(slices: Slices) -> Unit {
        assert!(!slices.are_a_units(), "slices of a unit's lengths");
        Unit(slices)
    }

    pub fn slices(&self) -> &Slices {
        &self.0
    }

    pub fn respond(&mut self, port: u8, request: &[u8], answer: &mut [u8]) -> i32 {
        let slices = &mut self.0;
        unsafe {
            library::taxeedhuul_respond(
                to_change(&mut slices.head),
                slices.head.len(),
                to_change(&mut slices.table),
                slices.table.len(),
                to_change(&mut slices.memory),
                slices.memory.len(),
                port,
                to_read(request),
                request.len(),
                to_change(answer),
                answer.len(),
            )
        }
    }

    pub fn fit(&mut self, fit: &Fit) -> i32 {
        let slices = &mut self.0;
        unsafe {
            library::taxeedhuul_fit(
                to_change(&mut slices.head),
                slices.head.len(),
                to_change(&mut slices.table),
                slices.table.len(),
                to_change(&mut slices.memory),
                slices.memory.len(),
                fit.tag,
                fit.size,
                fit.mode,
                fit.spf,
                fit.locked,
                fit.password,
                to_read(&fit.first),
                fit.first.len(),
            )
        }
    }
}

// ---- the gate writes

pub fn write_resource_information(area: &mut [u8], writing: &Writing) -> i32 {
    unsafe {
        library::taxeedhuul_write_resource_information(
            to_change(area),
            area.len(),
            writing.version,
            to_read(&writing.tags),
            writing.tags.len(),
        )
    }
}

pub fn write_allocate(area: &mut [u8], writing: &Writing) -> i32 {
    unsafe {
        library::taxeedhuul_write_allocate(
            to_change(area),
            area.len(),
            writing.version,
            writing.tag,
            writing.mode,
            writing.size,
            writing.locked,
            writing.password,
            to_read(&writing.bytes),
            writing.bytes.len(),
        )
    }
}

pub fn write_free(area: &mut [u8], writing: &Writing) -> i32 {
    unsafe {
        library::taxeedhuul_write_free(
            to_change(area),
            area.len(),
            writing.version,
            writing.tag,
            writing.locked,
            writing.password,
        )
    }
}

pub fn write_read(area: &mut [u8], writing: &Writing) -> i32 {
    unsafe {
        library::taxeedhuul_write_read(
            to_change(area),
            area.len(),
            writing.version,
            writing.tag,
            writing.locked,
            writing.password,
        )
    }
}

pub fn write_write(area: &mut [u8], writing: &Writing) -> i32 {
    unsafe {
        library::taxeedhuul_write_write(
            to_change(area),
            area.len(),
            writing.version,
            writing.tag,
            writing.locked,
            writing.password,
            to_read(&writing.bytes),
            writing.bytes.len(),
        )
    }
}

pub fn write_bulk_read(area: &mut [u8], writing: &Writing) -> i32 {
    unsafe {
        library::taxeedhuul_write_bulk_read(
            to_change(area),
            area.len(),
            writing.version,
            writing.locked,
            to_read(&writing.tags),
            writing.tags.len(),
            to_read(&writing.passwords),
            writing.passwords.len(),
        )
    }
}

pub fn write_bulk_write(area: &mut [u8], writing: &Writing) -> i32 {
    unsafe {
        library::taxeedhuul_write_bulk_write(
            to_change(area),
            area.len(),
            writing.version,
            writing.locked,
            to_read(&writing.tags),
            writing.tags.len(),
            to_read(&writing.passwords),
            writing.passwords.len(),
            to_read(&writing.starts),
            writing.starts.len(),
            to_read(&writing.lengths),
            writing.lengths.len(),
            to_read(&writing.bytes),
            writing.bytes.len(),
        )
    }
}

// ---- the gate reads

pub fn read_answer(octets: &[u8], fields: &mut [u64]) -> i32 {
    unsafe {
        library::taxeedhuul_read_answer(
            to_read(octets),
            octets.len(),
            to_change(fields),
            fields.len(),
        )
    }
}

pub fn read_tag(octets: &[u8], at: usize, fields: &mut [u64]) -> i32 {
    unsafe {
        library::taxeedhuul_read_tag(
            to_read(octets),
            octets.len(),
            at,
            to_change(fields),
            fields.len(),
        )
    }
}

pub fn read_memory_data(octets: &[u8], at: usize, fields: &mut [u64]) -> i32 {
    unsafe {
        library::taxeedhuul_read_memory_data(
            to_read(octets),
            octets.len(),
            at,
            to_change(fields),
            fields.len(),
        )
    }
}

pub fn read_resource(octets: &[u8], at: usize, fields: &mut [u64]) -> i32 {
    unsafe {
        library::taxeedhuul_read_resource(
            to_read(octets),
            octets.len(),
            at,
            to_change(fields),
            fields.len(),
        )
    }
}

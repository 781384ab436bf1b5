//! Taxeedhuul for Rust: safe functions over those of libcapi.a, with document 01's rules. An error is document 01's
//! number. Each call passes slices with their own lengths, and a unit's memory is private to `Unit`, so that only the
//! library changes it: this is all that the library asks.
#![allow(dead_code)]

/// The longest message, and the shortest answer area.
pub const MESSAGE: usize = 2048;

/// Document 01's number.
pub type Number = u16;

// The declarations of include/taxeedhuul.h.
#[rustfmt::skip]
mod library {
    extern "C" {
        pub fn taxeedhuul_start(
            head: *mut u64, head_length: usize, table: *mut u64, table_length: usize, memory: *mut u8, memory_length: usize,
            version: u8, allocation: bool, passwords: bool,
        ) -> i32;
        pub fn taxeedhuul_respond(
            head: *mut u64, head_length: usize, table: *mut u64, table_length: usize, memory: *mut u8, memory_length: usize,
            port: u8, request: *const u8, request_length: usize, answer: *mut u8, answer_length: usize,
        ) -> i32;
        pub fn taxeedhuul_fit(
            head: *mut u64, head_length: usize, table: *mut u64, table_length: usize, memory: *mut u8, memory_length: usize,
            tag: u64, size: u32, mode: u8, spf: bool, locked: bool, password: u64, first: *const u8, first_length: usize,
        ) -> i32;
        pub fn taxeedhuul_write_resource_information(
            area: *mut u8, area_length: usize, version: u8, tags: *const u64, tags_length: usize,
        ) -> i32;
        pub fn taxeedhuul_write_allocate(
            area: *mut u8, area_length: usize, version: u8, tag: u64, mode: u8, size: u32, locked: bool, password: u64,
            initial: *const u8, initial_length: usize,
        ) -> i32;
        pub fn taxeedhuul_write_free(
            area: *mut u8, area_length: usize, version: u8, tag: u64, locked: bool, password: u64,
        ) -> i32;
        pub fn taxeedhuul_write_read(
            area: *mut u8, area_length: usize, version: u8, tag: u64, locked: bool, password: u64,
        ) -> i32;
        pub fn taxeedhuul_write_write(
            area: *mut u8, area_length: usize, version: u8, tag: u64, locked: bool, password: u64, bytes: *const u8,
            bytes_length: usize,
        ) -> i32;
        pub fn taxeedhuul_write_bulk_read(
            area: *mut u8, area_length: usize, version: u8, locked: bool, tags: *const u64, tags_length: usize,
            passwords: *const u64, passwords_length: usize,
        ) -> i32;
        pub fn taxeedhuul_write_bulk_write(
            area: *mut u8, area_length: usize, version: u8, locked: bool, tags: *const u64, tags_length: usize,
            passwords: *const u64, passwords_length: usize, starts: *const usize, starts_length: usize,
            lengths: *const usize, lengths_length: usize, bytes: *const u8, bytes_length: usize,
        ) -> i32;
        pub fn taxeedhuul_read_answer(octets: *const u8, octets_length: usize, fields: *mut u64, fields_length: usize) -> i32;
        pub fn taxeedhuul_read_tag(
            octets: *const u8, octets_length: usize, at: usize, fields: *mut u64, fields_length: usize,
        ) -> i32;
        pub fn taxeedhuul_read_memory_data(
            octets: *const u8, octets_length: usize, at: usize, fields: *mut u64, fields_length: usize,
        ) -> i32;
        pub fn taxeedhuul_read_resource(
            octets: *const u8, octets_length: usize, at: usize, fields: *mut u64, fields_length: usize,
        ) -> i32;
    }
}

/// What went well, or the number of a refusal, which the library gives as minus that number.
fn told(result: i32) -> Result<usize, Number> {
    if result < 0 {
        Err(result.unsigned_abs() as Number)
    } else {
        Ok(result as usize)
    }
}

/// By which port a request came.
#[derive(Clone, Copy)]
pub enum Port {
    Normal = 0,
    Secure = 1,
}

/// How a tag may be used.
#[derive(Clone, Copy)]
pub enum Mode {
    Both = 0,
    WriteOnly = 1,
    ReadOnly = 2,
}

// ---- the unit

/// A unit and all that its tags hold.
#[derive(Clone)]
pub struct Unit {
    head: [u64; 5],
    table: [u64; 256],
    memory: [u8; 8192],
}

impl Unit {
    /// A unit without tags. 301 for a version above 15.
    pub fn start(version: u8, allocation: bool, passwords: bool) -> Result<Unit, Number> {
        let mut unit = Unit {
            head: [0; 5],
            table: [0; 256],
            memory: [0; 8192],
        };
        told(unsafe {
            library::taxeedhuul_start(
                unit.head.as_mut_ptr(),
                unit.head.len(),
                unit.table.as_mut_ptr(),
                unit.table.len(),
                unit.memory.as_mut_ptr(),
                unit.memory.len(),
                version,
                allocation,
                passwords,
            )
        })?;
        Ok(unit)
    }

    /// The answer to a request, in the answer area. 300 where that has fewer than 2,048 octets.
    pub fn respond<'a>(&mut self, port: Port, request: &[u8], answer: &'a mut [u8]) -> Result<&'a [u8], Number> {
        let length = told(unsafe {
            library::taxeedhuul_respond(
                self.head.as_mut_ptr(),
                self.head.len(),
                self.table.as_mut_ptr(),
                self.table.len(),
                self.memory.as_mut_ptr(),
                self.memory.len(),
                port as u8,
                request.as_ptr(),
                request.len(),
                answer.as_mut_ptr(),
                answer.len(),
            )
        })?;
        Ok(&answer[..length])
    }

    /// Fits a unit-managed tag with its first data. 6, 12, 9 or 5.
    pub fn fit(
        &mut self,
        tag: u64,
        size: u32,
        mode: Mode,
        spf: bool,
        password: Option<u64>,
        first: &[u8],
    ) -> Result<(), Number> {
        told(unsafe {
            library::taxeedhuul_fit(
                self.head.as_mut_ptr(),
                self.head.len(),
                self.table.as_mut_ptr(),
                self.table.len(),
                self.memory.as_mut_ptr(),
                self.memory.len(),
                tag,
                size,
                mode as u8,
                spf,
                password.is_some(),
                password.unwrap_or(0),
                first.as_ptr(),
                first.len(),
            )
        })?;
        Ok(())
    }
}

// ---- the gate

/// A gate of a version, which writes each request into one area of its own.
pub struct Gate {
    version: u8,
    area: [u8; MESSAGE],
}

/// Part of `bytes` for an entry of a bulk write.
#[derive(Clone, Copy)]
pub struct Part {
    pub start: usize,
    pub length: usize,
}

impl Gate {
    pub fn new(version: u8) -> Gate {
        Gate {
            version,
            area: [0; MESSAGE],
        }
    }

    fn written(&self, result: i32) -> Result<&[u8], Number> {
        Ok(&self.area[..told(result)?])
    }

    pub fn resource_information(&mut self, tags: &[u64]) -> Result<&[u8], Number> {
        let result = unsafe {
            library::taxeedhuul_write_resource_information(
                self.area.as_mut_ptr(),
                self.area.len(),
                self.version,
                tags.as_ptr(),
                tags.len(),
            )
        };
        self.written(result)
    }

    /// `mode` is the code of the tables: 4 more where SPF is required.
    pub fn allocate(
        &mut self,
        tag: u64,
        mode: u8,
        size: u32,
        password: Option<u64>,
        initial: &[u8],
    ) -> Result<&[u8], Number> {
        let result = unsafe {
            library::taxeedhuul_write_allocate(
                self.area.as_mut_ptr(),
                self.area.len(),
                self.version,
                tag,
                mode,
                size,
                password.is_some(),
                password.unwrap_or(0),
                initial.as_ptr(),
                initial.len(),
            )
        };
        self.written(result)
    }

    pub fn free(&mut self, tag: u64, password: Option<u64>) -> Result<&[u8], Number> {
        let result = unsafe {
            library::taxeedhuul_write_free(
                self.area.as_mut_ptr(),
                self.area.len(),
                self.version,
                tag,
                password.is_some(),
                password.unwrap_or(0),
            )
        };
        self.written(result)
    }

    pub fn read(&mut self, tag: u64, password: Option<u64>) -> Result<&[u8], Number> {
        let result = unsafe {
            library::taxeedhuul_write_read(
                self.area.as_mut_ptr(),
                self.area.len(),
                self.version,
                tag,
                password.is_some(),
                password.unwrap_or(0),
            )
        };
        self.written(result)
    }

    pub fn write(&mut self, tag: u64, password: Option<u64>, bytes: &[u8]) -> Result<&[u8], Number> {
        let result = unsafe {
            library::taxeedhuul_write_write(
                self.area.as_mut_ptr(),
                self.area.len(),
                self.version,
                tag,
                password.is_some(),
                password.unwrap_or(0),
                bytes.as_ptr(),
                bytes.len(),
            )
        };
        self.written(result)
    }

    /// With passwords, one for each tag.
    pub fn bulk_read(&mut self, tags: &[u64], passwords: Option<&[u64]>) -> Result<&[u8], Number> {
        let each = passwords.unwrap_or(&[]);
        let result = unsafe {
            library::taxeedhuul_write_bulk_read(
                self.area.as_mut_ptr(),
                self.area.len(),
                self.version,
                passwords.is_some(),
                tags.as_ptr(),
                tags.len(),
                each.as_ptr(),
                each.len(),
            )
        };
        self.written(result)
    }

    /// With passwords, one for each tag; for each tag its part of the bytes.
    pub fn bulk_write(
        &mut self,
        tags: &[u64],
        passwords: Option<&[u64]>,
        parts: &[Part],
        bytes: &[u8],
    ) -> Result<&[u8], Number> {
        let each = passwords.unwrap_or(&[]);
        let starts: Vec<usize> = parts.iter().map(|part| part.start).collect();
        let lengths: Vec<usize> = parts.iter().map(|part| part.length).collect();
        let result = unsafe {
            library::taxeedhuul_write_bulk_write(
                self.area.as_mut_ptr(),
                self.area.len(),
                self.version,
                passwords.is_some(),
                tags.as_ptr(),
                tags.len(),
                each.as_ptr(),
                each.len(),
                starts.as_ptr(),
                starts.len(),
                lengths.as_ptr(),
                lengths.len(),
                bytes.as_ptr(),
                bytes.len(),
            )
        };
        self.written(result)
    }
}

// ---- answers

/// What a unit can take.
pub struct Room {
    pub largest: u64,
    pub tags: u64,
    pub octets: u64,
    pub volatile_tags: u64,
    pub volatile_octets: u64,
    pub entries: u64,
}

/// What an answer says. The octets of data and of a supplement are the answer's own.
pub enum Said<'a> {
    Denied { status: u8, supplement: &'a [u8] },
    Resources { room: Room, tags: Vec<Resource> },
    Allocated(u64),
    Freed(u64),
    Read(u64, &'a [u8]),
    Written(u64),
    BulkRead(Vec<(u64, &'a [u8])>),
    BulkWritten(Vec<u64>),
}

pub struct Resource {
    pub tag: u64,
    pub mode: u8,
    pub held: u64,
    pub size: u64,
}

pub struct Answer<'a> {
    /// The operation's type, or 255 for a denial.
    pub kind: u8,
    pub version: u8,
    pub said: Said<'a>,
}

/// The words of `count` entries from `at` on, by the reader of such an entry.
fn entries(
    octets: &[u8],
    mut at: usize,
    count: usize,
    read: unsafe extern "C" fn(*const u8, usize, usize, *mut u64, usize) -> i32,
) -> Result<Vec<[u64; 4]>, Number> {
    let mut all = Vec::with_capacity(count);
    for _ in 0..count {
        let mut fields = [0; 4];
        at = told(unsafe { read(octets.as_ptr(), octets.len(), at, fields.as_mut_ptr(), fields.len()) })?;
        all.push(fields);
    }
    Ok(all)
}

/// What octets answer. 16 where they are no answer.
pub fn read_answer(octets: &[u8]) -> Result<Answer<'_>, Number> {
    let mut fields = [0u64; 12];
    let kind = told(unsafe {
        library::taxeedhuul_read_answer(octets.as_ptr(), octets.len(), fields.as_mut_ptr(), fields.len())
    })? as u8;
    let [_, version, status, tag, start, length, largest, tags, octets_left, volatile_tags, volatile_octets, most] =
        fields;
    let (start, length) = (start as usize, length as usize);
    let said = match kind {
        255 => Said::Denied {
            status: status as u8,
            supplement: &octets[start..start + length],
        },
        128 => Said::Resources {
            room: Room {
                largest,
                tags,
                octets: octets_left,
                volatile_tags,
                volatile_octets,
                entries: most,
            },
            tags: entries(octets, start, length, library::taxeedhuul_read_resource)?
                .into_iter()
                .map(|[tag, mode, held, size]| Resource {
                    tag,
                    mode: mode as u8,
                    held,
                    size,
                })
                .collect(),
        },
        129 | 193 => Said::Allocated(tag),
        130 | 194 => Said::Freed(tag),
        131 | 195 => Said::Read(tag, &octets[start..start + length]),
        132 | 196 => Said::Written(tag),
        133 | 197 => Said::BulkRead(
            entries(octets, start, length, library::taxeedhuul_read_memory_data)?
                .into_iter()
                .map(|[tag, start, length, _]| (tag, &octets[start as usize..(start + length) as usize]))
                .collect(),
        ),
        _ => Said::BulkWritten(
            entries(octets, start, length, library::taxeedhuul_read_tag)?
                .into_iter()
                .map(|[tag, ..]| tag)
                .collect(),
        ),
    };
    Ok(Answer {
        kind,
        version: version as u8,
        said,
    })
}

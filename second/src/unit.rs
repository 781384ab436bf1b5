//! The unit: its tags, the vehicle's call that fits a unit-managed tag, and the answer to every request.
//! Rules: document 01, "Tags", "Denials and their order" and "Lists". It relies on `message` for octets only.
//! A unit may be told to be wrong in one way (see `wrong`); a right unit never is.

use crate::message::{
    answer_octets, length_width, list_count, read_request_as, Allocation, Answer, Form, List,
    MemoryData, Operation, Password, Reply, ResourceInformation, Tag, TagResource, AREA_TOO_SHORT,
};
use crate::wrong::{limits, Wrong};

/// The fixed limits of a kind of unit, with those of a request and of a bulk read's body.
#[derive(Clone, Copy, Debug)]
pub struct Limits {
    pub tags: usize,
    pub memory: u64,
    pub area: u64,
    pub list: usize,
    pub request: usize,
    pub body: usize,
}

pub const FIRST_KIND: Limits = Limits {
    tags: 32,
    memory: 8192,
    area: 1024,
    list: 16,
    request: 2048,
    body: 2042,
};

/// The shortest answer area that a unit takes, and the largest receivable size that it tells.
const ANSWER_AREA: usize = 2048;
const RECEIVABLE_SIZE: u64 = 2048;

pub const WRONG_VERSION: u16 = 4;
pub const NO_ROOM: u16 = 5;
pub const NO_SUCH_TAG: u16 = 6;
pub const LIST_TOO_LONG: u16 = 7;
pub const AGAINST_MODE: u16 = 8;
pub const BAD_SIZE: u16 = 9;
pub const BAD_PASSWORD: u16 = 10;
pub const SPF_REQUIRED: u16 = 11;
pub const NOT_FITTED: u16 = 12;
pub const ILLEGAL: u16 = 16;
pub const BAD_START: u16 = 301;

const KIND_BITS: u8 = 0xC0;
const VOLATILE_BIT: u8 = 0x80;
const UNIT_MANAGED_BIT: u8 = 0x40;

#[derive(Clone, Copy, Debug, PartialEq, Eq)]
pub enum Port {
    Normal,
    Secure,
}

#[derive(Clone, Copy, Debug, PartialEq, Eq)]
pub enum Mode {
    Both,
    WriteOnly,
    ReadOnly,
}

/// The octet of table 3.2-9: bit 0 prohibits reading, bit 1 prohibits writing, bit 2 requires SPF.
pub fn mode_code(mode: Mode, spf_required: bool) -> u8 {
    let prohibited = match mode {
        Mode::Both => 0,
        Mode::WriteOnly => 1,
        Mode::ReadOnly => 2,
    };
    prohibited + if spf_required { 4 } else { 0 }
}

pub fn may_read(code: u8) -> bool {
    code & 1 == 0
}

pub fn may_write(code: u8) -> bool {
    code & 2 == 0
}

pub fn needs_spf(code: u8) -> bool {
    code & 4 != 0
}

/// The tag as it is compared and answered: the low six bits of its first octet are zero.
pub fn normal(tag: &Tag) -> Tag {
    let mut tag = *tag;
    tag[0] &= KIND_BITS;
    tag
}

pub fn is_unit_managed(tag: &Tag) -> bool {
    tag[0] & UNIT_MANAGED_BIT != 0
}

/// A registered tag; its area has its full size and is zero behind the held length.
#[derive(Clone, Debug, PartialEq, Eq)]
pub struct Registered {
    pub tag: Tag,
    pub mode: u8,
    pub password: Option<Password>,
    pub area: Vec<u8>,
    pub held_length: usize,
}

impl Registered {
    pub fn size(&self) -> usize {
        self.area.len()
    }

    pub fn held(&self) -> &[u8] {
        &self.area[..self.held_length]
    }

    /// A write replaces the contents, and the rest of the area is zero.
    fn write(&mut self, data: &[u8]) {
        self.area.fill(0);
        self.area[..data.len()].copy_from_slice(data);
        self.held_length = data.len();
    }
}

/// What the vehicle gives to fit a unit-managed tag.
#[derive(Clone, Debug)]
pub struct Fitting {
    pub tag: Tag,
    pub size: u64,
    pub mode: Mode,
    pub spf_required: bool,
    pub password: Option<Password>,
    pub first_data: Vec<u8>,
}

/// What a command is about to do with a registered tag.
#[derive(Clone, Copy, Debug, PartialEq, Eq)]
enum Purpose {
    Free,
    Read,
    Write { length: usize },
}

/// Who asks: the port, and whether the entry stands in a bulk list.
#[derive(Clone, Copy, Debug)]
struct Caller {
    port: Port,
    bulk: bool,
}

#[derive(Clone, Debug)]
pub struct Unit {
    version: u64,
    allocation_fitted: bool,
    passwords_fitted: bool,
    tags: Vec<Registered>,
    limits: Limits,
    wrong: Option<Wrong>,
    ever_granted: u64,
}

impl Unit {
    /// A unit without tags; 301 for a version above 15.
    pub fn start(version: u64, allocation: bool, passwords: bool) -> Result<Unit, u16> {
        Unit::start_wrong(version, allocation, passwords, None)
    }

    pub fn start_wrong(
        version: u64,
        allocation: bool,
        passwords: bool,
        wrong: Option<Wrong>,
    ) -> Result<Unit, u16> {
        if version > 15 {
            return Err(BAD_START);
        }
        Ok(Unit {
            version,
            allocation_fitted: allocation,
            passwords_fitted: passwords,
            tags: Vec::new(),
            limits: limits(wrong),
            wrong,
            ever_granted: 0,
        })
    }

    /// The registered tags, for the drawing of logs and for tests.
    pub fn tags(&self) -> &[Registered] {
        &self.tags
    }

    pub fn octets_in_use(&self) -> u64 {
        self.tags.iter().map(|known| known.size() as u64).sum()
    }

    fn is_wrong(&self, wrong: Wrong) -> bool {
        self.wrong == Some(wrong)
    }

    /// The vehicle's call: 6, 12, 9, 5 to the caller, and then all is as it was.
    pub fn fit(&mut self, fitting: &Fitting) -> Result<(), u16> {
        if !is_unit_managed(&fitting.tag) || self.find(&fitting.tag).is_some() {
            return Err(NO_SUCH_TAG);
        }
        if fitting.password.is_some() && !self.passwords_fitted {
            return Err(NOT_FITTED);
        }
        if !self.is_area_size(fitting.size) || fitting.first_data.len() as u64 > fitting.size {
            return Err(BAD_SIZE);
        }
        if !self.has_room(fitting.size) {
            return Err(NO_ROOM);
        }
        let code = mode_code(fitting.mode, fitting.spf_required);
        self.register(&fitting.tag, code, fitting.size, fitting.password);
        if let Some(fitted) = self.tags.last_mut() {
            fitted.write(&fitting.first_data);
        }
        Ok(())
    }

    /// The answer's octets, or 300 to the caller if the answer area is too short.
    pub fn respond(
        &mut self,
        port: Port,
        request: &[u8],
        area_length: usize,
    ) -> Result<Vec<u8>, u16> {
        if area_length < ANSWER_AREA {
            return Err(AREA_TOO_SHORT);
        }
        let reply = match self.reply(port, request) {
            Ok(reply) => reply,
            Err(number) => return Ok(self.denial(number, request)),
        };
        let answer = Answer {
            version: self.version,
            reply,
        };
        // A right unit's answers are always written; the denial is for wrong programs only.
        Ok(answer_octets(&answer).unwrap_or_else(|number| {
            assert!(self.wrong.is_some(), "a right unit's answer was refused");
            self.denial(number, request)
        }))
    }

    fn denial(&self, number: u16, request: &[u8]) -> Vec<u8> {
        let own = (self.version as u8) << 4;
        let told = !self.is_wrong(Wrong::VersionDenialWithoutSupplement);
        let supplement = if number == WRONG_VERSION && told {
            vec![own]
        } else {
            Vec::new()
        };
        let version = match request.first() {
            Some(first) if self.is_wrong(Wrong::DenialWithVersionOfRequest) => first >> 4,
            _ => self.version as u8,
        };
        let answer = Answer {
            version: u64::from(version),
            reply: Reply::Denial {
                status: u64::from(number),
                supplement,
            },
        };
        answer_octets(&answer).expect("every denial can be written")
    }

    /// Document 01's lines in their order; the first that applies decides.
    fn reply(&mut self, port: Port, request: &[u8]) -> Result<Reply, u16> {
        self.check_first_octets(request)?;
        if self.is_wrong(Wrong::SevenBeforeSixteen)
            && matches!(request[2], 0 | 5 | 6 | 69 | 70)
            && list_count(request)? > self.limits.list
        {
            return Err(LIST_TOO_LONG);
        }
        let operation = read_request_as(request, self.wrong)?.operation;
        if list_length(&operation) > self.limits.list {
            return Err(LIST_TOO_LONG);
        }
        self.perform(port, operation)
    }

    /// 16, 4, 16, 12: the lines that look at no more than the first three octets.
    fn check_first_octets(&self, request: &[u8]) -> Result<(), u16> {
        if request.is_empty() || request.len() > self.limits.request {
            return Err(ILLEGAL);
        }
        if self.is_wrong(Wrong::VersionAfterFill) && request[0] & 0x0F != 0 {
            return Err(ILLEGAL);
        }
        if u64::from(request[0] >> 4) != self.version {
            return Err(WRONG_VERSION);
        }
        if request[0] & 0x0F != 0 || request.len() < 3 || request[1] != 1 {
            return Err(ILLEGAL);
        }
        if self.is_wrong(Wrong::TwelveAfterProfile) && request.get(3) != Some(&0) {
            return Err(ILLEGAL);
        }
        if !self.is_served(request[2]) {
            return Err(NOT_FITTED);
        }
        Ok(())
    }

    /// Whether the operation type is in the table and its options are fitted.
    fn is_served(&self, operation_type: u8) -> bool {
        match operation_type {
            0 | 3..=6 => true,
            1 | 2 => self.allocation_fitted,
            65 | 66 => self.allocation_fitted && self.passwords_fitted,
            67..=70 => self.passwords_fitted,
            7..=64 | 71..=255 => false,
        }
    }

    fn perform(&mut self, port: Port, operation: Operation) -> Result<Reply, u16> {
        match operation {
            Operation::ResourceInformation(tags) => Ok(Reply::ResourceInformation(
                self.resource_information(port, &tags),
            )),
            Operation::Allocate(allocation, password) => self.allocate(port, &allocation, password),
            Operation::Free(tag, password) => self.free(port, &tag, password),
            Operation::Read(tag, password) => self.read(port, &tag, password),
            Operation::Write(memory, password) => self.write(port, &memory, password),
            Operation::BulkRead(list) => self.bulk_read(port, list),
            Operation::BulkWrite(list) => self.bulk_write(port, list),
        }
    }

    fn same_tag(&self, one: &Tag, other: &Tag) -> bool {
        let ignored = match self.wrong {
            Some(Wrong::AllEightOctetsOfTagCompared) => 0,
            Some(Wrong::VolatileBitIgnored) => !KIND_BITS | VOLATILE_BIT,
            _ => !KIND_BITS,
        };
        one[0] & !ignored == other[0] & !ignored && one[1..] == other[1..]
    }

    /// The place of the registered tag, if it is registered.
    fn find(&self, tag: &Tag) -> Option<usize> {
        self.tags
            .iter()
            .position(|known| self.same_tag(&known.tag, tag))
    }

    /// The tag as it stands in answers.
    fn shown(&self, tag: &Tag) -> Tag {
        if self.is_wrong(Wrong::IgnoredTagBitsShown) {
            return *tag;
        }
        normal(tag)
    }

    fn is_area_size(&self, size: u64) -> bool {
        (1..=self.limits.area).contains(&size)
    }

    /// Whether one more tag with this size finds room; freed room is used again.
    fn has_room(&self, size: u64) -> bool {
        let in_use = match self.wrong {
            Some(Wrong::FreedRoomNotUsedAgain) => self.ever_granted,
            Some(Wrong::GrantedOctetsOverflow) if self.ever_granted >= 1 << 20 => return false,
            _ => self.octets_in_use(),
        };
        self.tags.len() < self.limits.tags && in_use + size <= self.limits.memory
    }

    fn register(&mut self, tag: &Tag, mode: u8, size: u64, password: Option<Password>) {
        let stored = if self.is_wrong(Wrong::AllEightOctetsOfTagCompared) {
            *tag
        } else {
            normal(tag)
        };
        self.ever_granted += size;
        self.tags.push(Registered {
            tag: stored,
            mode,
            password,
            area: vec![0; size as usize],
            held_length: 0,
        });
    }

    /// 6, 9, 5. The initial value is dropped: the held length is 0 after allocation.
    fn allocate(
        &mut self,
        port: Port,
        allocation: &Allocation,
        password: Option<Password>,
    ) -> Result<Reply, u16> {
        let form = Form::of(&password);
        let managed =
            is_unit_managed(&allocation.tag) && !self.is_wrong(Wrong::UnitManagedTagAllocated);
        if managed || self.find(&allocation.tag).is_some() {
            return Err(NO_SUCH_TAG);
        }
        let spf_on_normal_port = needs_spf(allocation.mode) && port == Port::Normal;
        if spf_on_normal_port && self.is_wrong(Wrong::SpfAllocationRefusedOnNormalPort) {
            return Err(SPF_REQUIRED);
        }
        let size = self.granted_size(allocation)?;
        if !self.has_room(size) {
            return Err(NO_ROOM);
        }
        let password = self.meant_password(password);
        self.register(&allocation.tag, allocation.mode, size, password);
        if self.is_wrong(Wrong::InitialValueKept) && allocation.initial_value.len() as u64 <= size {
            let place = self.tags.len() - 1;
            self.tags[place].write(&allocation.initial_value);
        }
        Ok(Reply::Allocate(form, self.shown(&allocation.tag)))
    }

    /// The size of a new area, or 9 if it is not 1 to 1,024.
    fn granted_size(&self, allocation: &Allocation) -> Result<u64, u16> {
        let size = match self.wrong {
            Some(Wrong::SizeCutTo16Bits) => allocation.size & 0xFFFF,
            _ => allocation.size,
        };
        if self.is_wrong(Wrong::RoomBeforeSize) && !self.has_room(size) {
            return Err(NO_ROOM);
        }
        let too_long = allocation.initial_value.len() as u64 > size
            && self.is_wrong(Wrong::LongInitialValueRefused);
        if !self.is_area_size(size) || too_long {
            return Err(BAD_SIZE);
        }
        Ok(size)
    }

    /// Any 8 octets may be a password, all zeros too.
    fn meant_password(&self, password: Option<Password>) -> Option<Password> {
        if self.is_wrong(Wrong::ZerosTakenForNoPassword) && password == Some([0; 8]) {
            return None;
        }
        password
    }

    /// The rule for 10: the tag has a password and the command has none or another, or the tag has none and the
    /// command carries one.
    fn is_bad_password(&self, known: &Registered, password: Option<Password>) -> bool {
        match (known.password, self.meant_password(password)) {
            (None, None) => false,
            (None, Some(_)) => !self.is_wrong(Wrong::PasswordForUnprotectedTagLetThrough),
            (Some(_), None) => true,
            (Some(own), Some(given)) if self.is_wrong(Wrong::HalfOfPasswordCompared) => {
                own[4..] != given[4..]
            }
            (Some(own), Some(given)) => own != given,
        }
    }

    /// The place of the tag if the command is allowed; else 6, 11, 10, 8 or 9, in this order.
    fn admit(
        &self,
        caller: Caller,
        tag: &Tag,
        password: Option<Password>,
        purpose: Purpose,
    ) -> Result<usize, u16> {
        let place = self.find(tag).ok_or(NO_SUCH_TAG)?;
        if purpose == Purpose::Free && is_unit_managed(tag) {
            return Err(NO_SUCH_TAG);
        }
        let known = &self.tags[place];
        let port = self.check_port(caller, known);
        let password = self.check_password(caller, known, password, purpose);
        let mode = self.check_mode(known, purpose);
        let size = self.check_size(known, purpose);
        let checks = match self.wrong {
            Some(Wrong::PortAfterPassword) => [password, port, mode, size],
            Some(Wrong::ModeBeforePassword) => [port, mode, password, size],
            Some(Wrong::SizeBeforePassword) => [port, size, password, mode],
            _ => [port, password, mode, size],
        };
        checks.into_iter().collect::<Result<(), u16>>()?;
        Ok(place)
    }

    fn check_port(&self, caller: Caller, known: &Registered) -> Result<(), u16> {
        let unchecked = caller.bulk && self.is_wrong(Wrong::PortUncheckedInBulk);
        if needs_spf(known.mode) && caller.port == Port::Normal && !unchecked {
            return Err(SPF_REQUIRED);
        }
        Ok(())
    }

    fn check_password(
        &self,
        caller: Caller,
        known: &Registered,
        password: Option<Password>,
        purpose: Purpose,
    ) -> Result<(), u16> {
        let unchecked = caller.bulk && self.is_wrong(Wrong::PasswordUncheckedInBulk)
            || purpose == Purpose::Free && self.is_wrong(Wrong::FreeWithoutPassword);
        if self.is_bad_password(known, password) && !unchecked {
            return Err(BAD_PASSWORD);
        }
        Ok(())
    }

    fn check_mode(&self, known: &Registered, purpose: Purpose) -> Result<(), u16> {
        let allowed = match purpose {
            Purpose::Free => !self.is_wrong(Wrong::FreeAsksForMode) || may_write(known.mode),
            Purpose::Read => may_read(known.mode),
            Purpose::Write { .. } => may_write(known.mode),
        };
        if !allowed {
            return Err(AGAINST_MODE);
        }
        Ok(())
    }

    fn check_size(&self, known: &Registered, purpose: Purpose) -> Result<(), u16> {
        let Purpose::Write { length } = purpose else {
            return Ok(());
        };
        let refused = length == 0 && self.is_wrong(Wrong::EmptyDataRefused);
        if length > known.size() || refused {
            return Err(BAD_SIZE);
        }
        Ok(())
    }

    fn free(&mut self, port: Port, tag: &Tag, password: Option<Password>) -> Result<Reply, u16> {
        let caller = Caller { port, bulk: false };
        let place = self.admit(caller, tag, password, Purpose::Free)?;
        self.tags.remove(place);
        if self.is_wrong(Wrong::FreeClosesOneOctetShort) {
            self.close_one_octet_short(place);
        }
        Ok(Reply::Free(Form::of(&password), self.shown(tag)))
    }

    /// What a unit does to the areas behind a freed one if it moves them down by one octet too few.
    fn close_one_octet_short(&mut self, place: usize) {
        let mut carried = 0;
        for known in &mut self.tags[place..] {
            let last = known.area.pop().unwrap_or(0);
            known.area.insert(0, carried);
            carried = last;
        }
    }

    fn read(&mut self, port: Port, tag: &Tag, password: Option<Password>) -> Result<Reply, u16> {
        let caller = Caller { port, bulk: false };
        let place = self.admit(caller, tag, password, Purpose::Read)?;
        Ok(Reply::Read(Form::of(&password), self.contents(place, tag)))
    }

    /// The memory data of a read: the held length, not the area size.
    fn contents(&self, place: usize, tag: &Tag) -> MemoryData {
        let known = &self.tags[place];
        let data = if self.is_wrong(Wrong::WholeAreaRead) {
            known.area.clone()
        } else {
            known.held().to_vec()
        };
        MemoryData {
            tag: self.shown(tag),
            data,
        }
    }

    fn write(
        &mut self,
        port: Port,
        memory: &MemoryData,
        password: Option<Password>,
    ) -> Result<Reply, u16> {
        let caller = Caller { port, bulk: false };
        self.write_entry(caller, memory, password)?;
        Ok(Reply::Write(Form::of(&password), self.shown(&memory.tag)))
    }

    fn write_entry(
        &mut self,
        caller: Caller,
        memory: &MemoryData,
        password: Option<Password>,
    ) -> Result<(), u16> {
        let length = memory.data.len();
        let place = self.admit(caller, &memory.tag, password, Purpose::Write { length })?;
        if self.is_wrong(Wrong::HeldLengthNotShortened) {
            let known = &mut self.tags[place];
            known.area[..length].copy_from_slice(&memory.data);
            known.held_length = known.held_length.max(length);
        } else {
            self.tags[place].write(&memory.data);
        }
        Ok(())
    }

    /// An entry that a single command would deny, or with which the body would exceed 2,042 octets, is passed over.
    fn bulk_read(&self, port: Port, list: List<Tag>) -> Result<Reply, u16> {
        let form = list.form();
        let entries = self.bulk_read_order(list.into_entries());
        self.check_strangers(entries.iter().map(|(tag, _)| tag))?;
        let caller = Caller { port, bulk: true };
        let mut given = Vec::new();
        let mut taken: Vec<Tag> = Vec::new();
        let mut body = 1;
        for (tag, password) in entries {
            if self.is_dropped_repeat(&taken, &tag) {
                continue;
            }
            taken.push(tag);
            let Ok(place) = self.admit(caller, &tag, password, Purpose::Read) else {
                if self.is_wrong(Wrong::BulkEndedAtFirstBadEntry) {
                    break;
                }
                continue;
            };
            let memory = self.contents(place, &tag);
            let length = memory.data.len();
            let width = 8 + length_width(length) + length;
            let fits = body + width <= self.limits.body;
            if fits {
                given.push(memory);
            } else if self.is_wrong(Wrong::BulkReadEndedAtFirstTooLongEntry) {
                break;
            }
            if fits || self.is_wrong(Wrong::BulkReadChargedForTooLongEntry) {
                body += width;
            }
        }
        Ok(Reply::BulkRead(form, given))
    }

    /// The entries in the order given; one wrong program takes them in the order of its table.
    fn bulk_read_order(
        &self,
        mut entries: Vec<(Tag, Option<Password>)>,
    ) -> Vec<(Tag, Option<Password>)> {
        if self.is_wrong(Wrong::BulkReadInOrderOfTable) {
            entries.sort_by_key(|(tag, _)| self.find(tag));
        }
        entries
    }

    /// The tags written, in the order given, repeats included.
    fn bulk_write(&mut self, port: Port, list: List<MemoryData>) -> Result<Reply, u16> {
        let form = list.form();
        let entries = list.into_entries();
        self.check_strangers(entries.iter().map(|(memory, _)| &memory.tag))?;
        let caller = Caller { port, bulk: true };
        let before = self
            .is_wrong(Wrong::BulkWritesUndoneByBadEntry)
            .then(|| self.tags.clone());
        let mut written = Vec::new();
        let mut taken: Vec<Tag> = Vec::new();
        for (memory, password) in entries {
            if self.is_dropped_repeat(&taken, &memory.tag) {
                continue;
            }
            taken.push(memory.tag);
            if self.write_entry(caller, &memory, password).is_ok() {
                written.push(self.shown(&memory.tag));
            } else if self.is_wrong(Wrong::BulkEndedAtFirstBadEntry) {
                break;
            } else if let Some(before) = before {
                self.tags = before;
                return Ok(Reply::BulkWrite(form, Vec::new()));
            }
        }
        Ok(Reply::BulkWrite(form, written))
    }

    /// Two of the wrong programs: a list of unregistered tags is denied, repeats are dropped.
    fn check_strangers<'a>(&self, tags: impl Iterator<Item = &'a Tag>) -> Result<(), u16> {
        if !self.is_wrong(Wrong::BulkOfStrangersDenied) {
            return Ok(());
        }
        let mut registered = tags.map(|tag| self.find(tag).is_some()).peekable();
        if registered.peek().is_some() && registered.all(|is_registered| !is_registered) {
            return Err(NO_SUCH_TAG);
        }
        Ok(())
    }

    fn is_dropped_repeat(&self, taken: &[Tag], tag: &Tag) -> bool {
        self.is_wrong(Wrong::BulkRepeatsTakenOnce)
            && taken.iter().any(|earlier| self.same_tag(earlier, tag))
    }

    /// Tells of registered tags only, whatever the port; repeats are told again.
    fn resource_information(&self, port: Port, asked: &[Tag]) -> ResourceInformation {
        let (tags, octets) = self.remaining();
        ResourceInformation {
            receivable_size: match self.wrong {
                Some(Wrong::Receivable2042) => 2042,
                _ => RECEIVABLE_SIZE,
            },
            remaining_tags: tags.min(0xFFFF),
            remaining_octets: octets.min(0xFFFF_FFFF),
            remaining_volatile_tags: tags.min(0xFFFF),
            remaining_volatile_octets: octets.min(0xFFFF_FFFF),
            bulk_limit: FIRST_KIND.list as u64,
            tags: asked
                .iter()
                .filter_map(|tag| self.tag_resource(port, tag))
                .collect(),
        }
    }

    /// 32 tags and 8,192 octets less what is registered, or 0 and 0 if allocation is not fitted.
    fn remaining(&self) -> (u64, u64) {
        if !self.allocation_fitted {
            return (0, 0);
        }
        let in_use = if self.is_wrong(Wrong::RemainingByHeldLength) {
            self.tags.iter().map(|known| known.held_length as u64).sum()
        } else {
            self.octets_in_use()
        };
        let tags = FIRST_KIND.tags.saturating_sub(self.tags.len());
        (tags as u64, FIRST_KIND.memory.saturating_sub(in_use))
    }

    /// The data size is the held length, or 0 where reading is prohibited.
    fn tag_resource(&self, port: Port, tag: &Tag) -> Option<TagResource> {
        let known = &self.tags[self.find(tag)?];
        let hidden = needs_spf(known.mode) && port == Port::Normal;
        if hidden && self.is_wrong(Wrong::SpfTagHiddenOnNormalPort) {
            return None;
        }
        let told = may_read(known.mode) || self.is_wrong(Wrong::DataSizeToldOfWriteOnlyTag);
        Some(TagResource {
            tag: self.shown(tag),
            mode: known.mode,
            data_size: if told { known.held_length as u64 } else { 0 },
            area_size: (known.size() as u64).min(0xFFFF_FFFF),
        })
    }
}

fn list_length(operation: &Operation) -> usize {
    match operation {
        Operation::ResourceInformation(tags) => tags.len(),
        Operation::BulkRead(list) => list.len(),
        Operation::BulkWrite(list) => list.len(),
        _ => 0,
    }
}

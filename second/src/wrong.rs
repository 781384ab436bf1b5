//! The wrong programs: each is named and differs from document 01 in the one way that its line tells.
//! They show that the drawn logs reach the rules: every one of them must be told apart by its answers.
//! Left out: old octets left behind a shorter write while the held length is right. No reply can show them, as a
//! read gives the held length only and each of those octets comes from the last write. Its visible relative,
//! where the held length is not shortened either, is `held_length_not_shortened`.

use crate::unit::{Limits, FIRST_KIND};

#[derive(Clone, Copy, Debug, PartialEq, Eq)]
pub enum Wrong {
    PasswordUncheckedInBulk,
    PasswordForUnprotectedTagLetThrough,
    ZerosTakenForNoPassword,
    HalfOfPasswordCompared,
    AllEightOctetsOfTagCompared,
    VolatileBitIgnored,
    UnitManagedTagAllocated,
    SizeBeforePassword,
    ModeBeforePassword,
    PortAfterPassword,
    PortUncheckedInBulk,
    FreeAsksForMode,
    FreeWithoutPassword,
    HeldLengthNotShortened,
    WholeAreaRead,
    EmptyDataRefused,
    BulkEndedAtFirstBadEntry,
    BulkWritesUndoneByBadEntry,
    BulkReadEndedAtFirstTooLongEntry,
    BulkReadChargedForTooLongEntry,
    BulkReadInOrderOfTable,
    BulkRepeatsTakenOnce,
    BulkOfStrangersDenied,
    BulkBody2043,
    BulkBody2041,
    ThirtyThreeTags,
    ThirtyOneTags,
    Memory8193,
    Memory8191,
    Area1025,
    Area1023,
    SizeCutTo16Bits,
    RoomBeforeSize,
    FreedRoomNotUsedAgain,
    FreeClosesOneOctetShort,
    SpfAllocationRefusedOnNormalPort,
    InitialValueKept,
    LongInitialValueRefused,
    SevenBeforeSixteen,
    TwelveAfterProfile,
    VersionAfterFill,
    DenialWithVersionOfRequest,
    VersionDenialWithoutSupplement,
    RequestOf2048Refused,
    StrayOctetLetThrough,
    ListOf17Allowed,
    ListOf16Refused,
    IgnoredTagBitsShown,
    DataSizeToldOfWriteOnlyTag,
    SpfTagHiddenOnNormalPort,
    RemainingByHeldLength,
    Receivable2042,
    Mode3Accepted,
    ReservedModeBitsIgnored,
    LengthFormC0Accepted,
    LongerLengthFormAccepted,
    FiveThousandRecords,
    NumberOfFourDigits,
    GrantedOctetsOverflow,
}

use Wrong::*;

/// Every wrong program by its name.
pub const NAMES: [(&str, Wrong); 59] = [
    ("password_unchecked_in_bulk", PasswordUncheckedInBulk),
    (
        "password_for_unprotected_tag_let_through",
        PasswordForUnprotectedTagLetThrough,
    ),
    ("zeros_taken_for_no_password", ZerosTakenForNoPassword),
    ("half_of_password_compared", HalfOfPasswordCompared),
    (
        "all_eight_octets_of_tag_compared",
        AllEightOctetsOfTagCompared,
    ),
    ("volatile_bit_ignored", VolatileBitIgnored),
    ("unit_managed_tag_allocated", UnitManagedTagAllocated),
    ("size_before_password", SizeBeforePassword),
    ("mode_before_password", ModeBeforePassword),
    ("port_after_password", PortAfterPassword),
    ("port_unchecked_in_bulk", PortUncheckedInBulk),
    ("free_asks_for_mode", FreeAsksForMode),
    ("free_without_password", FreeWithoutPassword),
    ("held_length_not_shortened", HeldLengthNotShortened),
    ("whole_area_read", WholeAreaRead),
    ("empty_data_refused", EmptyDataRefused),
    ("bulk_ended_at_first_bad_entry", BulkEndedAtFirstBadEntry),
    (
        "bulk_writes_undone_by_bad_entry",
        BulkWritesUndoneByBadEntry,
    ),
    (
        "bulk_read_ended_at_first_too_long_entry",
        BulkReadEndedAtFirstTooLongEntry,
    ),
    (
        "bulk_read_charged_for_too_long_entry",
        BulkReadChargedForTooLongEntry,
    ),
    ("bulk_read_in_order_of_table", BulkReadInOrderOfTable),
    ("bulk_repeats_taken_once", BulkRepeatsTakenOnce),
    ("bulk_of_strangers_denied", BulkOfStrangersDenied),
    ("bulk_body_2043", BulkBody2043),
    ("bulk_body_2041", BulkBody2041),
    ("thirty_three_tags", ThirtyThreeTags),
    ("thirty_one_tags", ThirtyOneTags),
    ("memory_8193", Memory8193),
    ("memory_8191", Memory8191),
    ("area_1025", Area1025),
    ("area_1023", Area1023),
    ("size_cut_to_16_bits", SizeCutTo16Bits),
    ("room_before_size", RoomBeforeSize),
    ("freed_room_not_used_again", FreedRoomNotUsedAgain),
    ("free_closes_one_octet_short", FreeClosesOneOctetShort),
    (
        "spf_allocation_refused_on_normal_port",
        SpfAllocationRefusedOnNormalPort,
    ),
    ("initial_value_kept", InitialValueKept),
    ("long_initial_value_refused", LongInitialValueRefused),
    ("seven_before_sixteen", SevenBeforeSixteen),
    ("twelve_after_profile", TwelveAfterProfile),
    ("version_after_fill", VersionAfterFill),
    ("denial_with_version_of_request", DenialWithVersionOfRequest),
    (
        "version_denial_without_supplement",
        VersionDenialWithoutSupplement,
    ),
    ("request_of_2048_refused", RequestOf2048Refused),
    ("stray_octet_let_through", StrayOctetLetThrough),
    ("list_of_17_allowed", ListOf17Allowed),
    ("list_of_16_refused", ListOf16Refused),
    ("ignored_tag_bits_shown", IgnoredTagBitsShown),
    (
        "data_size_told_of_write_only_tag",
        DataSizeToldOfWriteOnlyTag,
    ),
    ("spf_tag_hidden_on_normal_port", SpfTagHiddenOnNormalPort),
    ("remaining_by_held_length", RemainingByHeldLength),
    ("receivable_2042", Receivable2042),
    ("mode_3_accepted", Mode3Accepted),
    ("reserved_mode_bits_ignored", ReservedModeBitsIgnored),
    ("length_form_c0_accepted", LengthFormC0Accepted),
    ("longer_length_form_accepted", LongerLengthFormAccepted),
    // What only a long log shows.
    ("five_thousand_records", FiveThousandRecords),
    ("number_of_four_digits", NumberOfFourDigits),
    ("granted_octets_overflow", GrantedOctetsOverflow),
];

/// The wrong program of this name.
pub fn named(name: &str) -> Option<Wrong> {
    NAMES
        .iter()
        .find(|(known, _)| *known == name)
        .map(|(_, wrong)| *wrong)
}

/// The limits that a program works with: those of the first kind of unit, but for one wrong number.
pub fn limits(wrong: Option<Wrong>) -> Limits {
    let mut limits = FIRST_KIND;
    match wrong {
        Some(BulkBody2043) => limits.body = 2043,
        Some(BulkBody2041) => limits.body = 2041,
        Some(ThirtyThreeTags) => limits.tags = 33,
        Some(ThirtyOneTags) => limits.tags = 31,
        Some(Memory8193) => limits.memory = 8193,
        Some(Memory8191) => limits.memory = 8191,
        Some(Area1025) => limits.area = 1025,
        Some(Area1023) => limits.area = 1023,
        Some(ListOf17Allowed) => limits.list = 17,
        Some(ListOf16Refused) => limits.list = 15,
        Some(RequestOf2048Refused) => limits.request = 2047,
        _ => {}
    }
    limits
}

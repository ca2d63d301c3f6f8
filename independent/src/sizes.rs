//! Document 01's sizes, each in this one place.

/// "Faces 1 to 16."
pub const FACES: usize = 16;
/// "Output buffer under 8,192" is refused.
pub const LEAST_BUFFER: usize = 8_192;
/// "Routes 32."
pub const ROUTES: usize = 32;
/// "Pending entries 64."
pub const PENDING: usize = 64;
/// "Stored Data 8."
pub const STORED: usize = 8;
/// "Dead nonces 256."
pub const DEAD_NONCES: usize = 256;
/// "Packet at most 1,500 bytes."
pub const PACKET_BYTES: usize = 1_500;
/// "Name at most 16 components."
pub const NAME_COMPONENTS: usize = 16;
/// "And 255 bytes (the Name's value)."
pub const NAME_BYTES: usize = 255;
/// "Times are milliseconds up to 2^53."
pub const LATEST_TIME: u64 = 1 << 53;
/// "An InterestLifetime above 60,000 counts as 60,000."
pub const LONGEST_LIFETIME: u64 = 60_000;
/// "Absent as 4,000."
pub const ABSENT_LIFETIME: u64 = 4_000;
/// "A FreshnessPeriod above 86,400,000 counts as that, absent as 0."
pub const LONGEST_FRESHNESS: u64 = 86_400_000;
/// "Route cost 0 to 65,535."
pub const GREATEST_COST: u64 = 65_535;
/// "`tapeout` reads a tape, at most 16,384 bytes."
pub const TAPE_BYTES: usize = 16_384;

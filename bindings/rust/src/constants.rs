//! The constants of barrier.h, without their BARRIER_ in front.

/// The version of barrier.h that this crate was written for, and its own.
pub const VERSION: &str = "3.3.2";
pub const VERSION_MAJOR: u32 = 3;
pub const VERSION_MINOR: u32 = 3;
pub const VERSION_PATCH: u32 = 2;

/// The schedule of every job fits in this many bytes.
pub const SCHEDULE_MAX: usize = 5624;
/// How much of its input the program `barrier` passes on.
pub const JOB_MAX: usize = 8192;
/// No accepted job has more bytes than this.
pub const JOB_LONGEST: usize = 5162;
/// How many hazards a job has at the most, and how many stand together.
pub const HAZARDS_MAX: usize = 256;
/// Every `u16` is a name.
pub const NAME_MAX: u16 = 65535;
/// An open job keeps this many states, under 0 to `STATES` - 1.
pub const STATES: usize = 8;
pub const RUNS_MAX: usize = 511;
/// How many ranges `quantities` takes.
pub const RANGES_MAX: usize = 64;
/// How many panel lengths a layout has at the most, the greatest of them, how
/// many panels of each, and the greatest limit on tries.
pub const LENGTHS_MAX: usize = 4;
pub const STOCK_PANEL_MAX: u64 = 20000;
pub const PANELS_EACH_MAX: u64 = 15;
pub const TRIES_MAX: u64 = 65536;
/// The greatest end of a road, and the longest road, in millimetres.
pub const STATION_MAX: u64 = 1_000_000_000_000;
pub const ROAD_MAX: u64 = 2_000_000_000;
/// Bytes of stack that suffice for each call on an open job, without the open
/// job itself, and for each of the other calls.
pub const OPEN_STACK_MAX: usize = 65536;
pub const STACK_MAX: usize = 40960;

/// A side of the road, `RIGHT` or `LEFT`; the engine refuses any other number.
pub type Side = u64;

/// The sides of the road. Forward traffic runs beside the right one.
pub const RIGHT: u64 = 0;
pub const LEFT: u64 = 1;

/// The containment levels, lowest first.
pub const NC_1: u64 = 1;
pub const NC_2: u64 = 2;
pub const NC_3: u64 = 3;
pub const NC_4: u64 = 4;
pub const NC_5: u64 = 5;
pub const NC_6: u64 = 6;

/// The numbers of the refusal table, and 0. No refusal has 6.
pub const DONE: u64 = 0;
pub const JOB_ENDED: u64 = 1;
pub const NUMBER_MALFORMED: u64 = 2;
pub const HEADER_RANGE: u64 = 3;
pub const HAZARD_RANGE: u64 = 4;
pub const HAZARD_NEAR: u64 = 5;
pub const JOB_LEFT_OVER: u64 = 7;
pub const ARGUMENT: u64 = 8;
pub const OUTPUT_SHORT: u64 = 9;
pub const NO_SCHEDULE: u64 = 10;
pub const TOO_MANY_RANGES: u64 = 11;
pub const NAME: u64 = 12;
pub const STATE: u64 = 13;
pub const NO_APPROACH: u64 = 14;
pub const FULL: u64 = 15;
pub const LENGTHS: u64 = 16;
pub const LIMIT: u64 = 17;

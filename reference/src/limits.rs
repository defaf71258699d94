//! The ranges under "Numbers", each beside the thing it bounds.

use std::ops::RangeInclusive;

/// "It holds up to 256 open transactions."
pub const PLACES: usize = 256;

/// "Path (1 to 999, a source and sink pair)."
pub const PATH: RangeInclusive<u64> = 1..=999;

/// "Hour (0 to 999,999)."
pub const HOUR: RangeInclusive<u64> = 0..=999_999;

/// "Points of a curve: 1 to 64."
pub const POINTS: RangeInclusive<usize> = 1..=64;

/// "MWh of a point: 0 to 10,000."
pub const POINT_MWH: RangeInclusive<u64> = 0..=10_000;

/// "Schedule, actual MWh: 0 to 640,000."
pub const MWH: RangeInclusive<u64> = 0..=640_000;

/// "Price: -1,000,000 to 1,000,000."
pub const PRICE: RangeInclusive<i64> = -1_000_000..=1_000_000;

/// "Differential: 0 to 1,000,000", for kinds 1 and 2, and for either side of
/// kind 6 (02, order 6).
pub const DIFFERENTIAL: RangeInclusive<u64> = 0..=1_000_000;

/// "Differential: 0 for kinds 3 and 4", and for kind 5 (02, order 3).
pub const NO_DIFFERENTIAL: RangeInclusive<u64> = 0..=0;

/// "Bill: -10^12 to 10^12."
pub const BILL: RangeInclusive<i64> = -1_000_000_000_000..=1_000_000_000_000;

/// "Support: 0 to 10^15."
pub const SUPPORT: RangeInclusive<i64> = 0..=1_000_000_000_000_000;

/// "Bid MWh is at most 10,000 for kinds 1 and 4."
pub const LARGEST_BID_MWH: RangeInclusive<u64> = 0..=10_000;

/// "And 640,000 otherwise."
pub const SUMMED_BID_MWH: RangeInclusive<u64> = 0..=640_000;

/// The requirement at "stages 1 and 2, 0 to 640,000,000,000".
pub const EARLY_REQUIREMENT: RangeInclusive<i64> = 0..=640_000_000_000;

/// The requirement at stages 1 and 2, "kind 4: to 20,000,000,000".
pub const EARLY_WHEEL_REQUIREMENT: RangeInclusive<i64> = 0..=20_000_000_000;

/// The requirement at "stage 3, within 1,300,000,000,000 of zero".
pub const FINISHED_REQUIREMENT: RangeInclusive<i64> = -1_300_000_000_000..=1_300_000_000_000;

/// "Four interval curves" (02, order 3), and four prices a path.
pub const INTERVALS: usize = 4;

/// "An interval has 0 to 64 points" (02, order 3).
pub const INTERVAL_POINTS: RangeInclusive<u64> = 0..=64;

/// An interval's MWh sum: 64 points of 10,000.
pub const INTERVAL_MWH: RangeInclusive<u64> = 0..=640_000;

/// Kind 5 at stage 1: "pending (stage 1), requirement 0" (02, order 3).
pub const PENDING_REQUIREMENT: RangeInclusive<i64> = 0..=0;

/// Kind 6: "path 1 to 11 for zones A to K" (02, order 6).
pub const ZONE: RangeInclusive<u64> = 1..=11;

/// Kind 6: "each side's MWh is at most 10,000" (02, order 6), bid or posted.
pub const SIDE_MWH: RangeInclusive<u64> = 0..=10_000;

/// The import test's numbers, "each 0 to 10^9".
pub const HISTORY: RangeInclusive<u64> = 0..=1_000_000_000;

/// "Bus 1 to 10 in the appendix's order." This and the three below bound a
/// lookup in either edition of the chart.
pub const BUS: RangeInclusive<u64> = 1..=10;

/// "Month 1 to 12."
pub const MONTH: RangeInclusive<u64> = 1..=12;

/// "Day type (0 weekday, 1 weekend or holiday)."
pub const DAY_TYPE: RangeInclusive<u64> = 0..=1;

/// The lookup's "hour 0 to 23".
pub const HOUR_OF_DAY: RangeInclusive<u64> = 0..=23;

//! The differential chart in its two editions, and the lookup: the 18 groups
//! with the 360 published differentials, and the 33 import groups of 001.

use crate::limits;
use crate::refusal::{require, Refusal};

/// "The caller names the edition" (02, order 5). The older chart, of "18
/// groups", for imports and exports.
pub const OLDER: u64 = 1;

/// The newer chart: the filing "replaces the 18 import groups with 33" (02,
/// order 5). "Export keeps the old chart."
pub const NEWER: u64 = 2;

/// Summer, winter and the rest of the year.
pub const SEASONS: usize = 3;

/// "18 groups": six in each season, in the older chart.
pub const GROUPS_IN_SEASON: usize = 6;

/// "Bus 1 to 10 in the appendix's order."
pub const BUSES: usize = 10;

/// "Import (virtual supply) or export (virtual load) table."
#[derive(Clone, Copy, Debug, PartialEq, Eq)]
pub enum Table {
    /// Virtual supply.
    Import,
    /// Virtual load.
    Export,
}

/// What the lookup answers: "group and differential".
#[derive(Clone, Copy, Debug, PartialEq, Eq)]
pub struct Entry {
    /// The group: 1 to 18 in the older chart, 1 to 33 in the newer.
    pub group: u64,
    /// The differential, in cents per MWh. None in the newer chart: "the new
    /// edition answers the group only" (02, order 5).
    pub differential: Option<u64>,
}

/// Looks a group up in an edition, and in the older one its differential.
///
/// Refusal 18: "bus, month, day type or hour out of range", in either
/// edition; it "covers an unknown edition and an export lookup in the new
/// one" (02, order 5).
pub fn lookup(
    edition: u64,
    table: Table,
    bus: u64,
    month: u64,
    day_type: u64,
    hour: u64,
) -> Result<Entry, Refusal> {
    let in_range = limits::BUS.contains(&bus)
        && limits::MONTH.contains(&month)
        && limits::DAY_TYPE.contains(&day_type)
        && limits::HOUR_OF_DAY.contains(&hour);
    require(in_range, Refusal::Lookup)?;
    match (edition, table) {
        (OLDER, Table::Import) => Ok(older(&IMPORT, bus, month, day_type, hour)),
        (OLDER, Table::Export) => Ok(older(&EXPORT, bus, month, day_type, hour)),
        (NEWER, Table::Import) => Ok(newer(month, day_type, hour)),
        _ => Err(Refusal::Lookup),
    }
}

/// The differentials of a table, in cents per MWh, by bus, season and group
/// of the season.
type Published = [[[u64; GROUPS_IN_SEASON]; SEASONS]; BUSES];

/// The older chart: "group and differential".
fn older(buses: &Published, bus: u64, month: u64, day_type: u64, hour: u64) -> Entry {
    let season = season(month);
    let place = place_in_season(day_type, hour);
    Entry {
        group: (GROUPS_IN_SEASON * season + place + 1) as u64,
        differential: Some(buses[bus as usize - 1][season][place]),
    }
}

/// The newer chart, 001's table "Import Price Differential (IPD) Groups", the
/// underlined one: one chart "For Each Proxy Generator Bus".
fn newer(month: u64, day_type: u64, hour: u64) -> Entry {
    let group = match season(month) {
        SUMMER => summer(day_type, hour),
        WINTER => winter(day_type, hour),
        _ => rest_of_year(day_type, hour),
    };
    Entry {
        group,
        differential: None,
    }
}

const SUMMER: usize = 0;
const WINTER: usize = 1;
const REST_OF_YEAR: usize = 2;

/// "Summer is May to August (groups 1 to 6), winter December to February
/// (7 to 12), the rest 13 to 18." The newer chart has the same months, the
/// rest being "March, April, September, October, and November".
fn season(month: u64) -> usize {
    match month {
        5..=8 => SUMMER,
        12 | 1 | 2 => WINTER,
        _ => REST_OF_YEAR,
    }
}

/// "In a season: hours beginning 7-10, 11-14, 15-18, 19-22 on ordinary
/// weekdays; weekend or holiday 7-22; night 23-6 on any day."
///
/// Of the older chart; counted from 0, so that the first group of a season is
/// at 0.
fn place_in_season(day_type: u64, hour: u64) -> usize {
    match (day_type, hour) {
        (_, 23 | 0..=6) => 5,
        (1, _) => 4,
        (_, 7..=10) => 0,
        (_, 11..=14) => 1,
        (_, 15..=18) => 2,
        (_, _) => 3,
    }
}

/// IPD-1 to IPD-14: "HB07-09" to "HB21-22" with "HB18" alone, six of "Weekend/
/// Holiday", "Night (HB00,23)" and "Night (HB01-06)".
fn summer(day_type: u64, hour: u64) -> u64 {
    match (day_type, hour) {
        (_, 0 | 23) => 13,
        (_, 1..=6) => 14,
        (0, 7..=9) => 1,
        (0, 10..=12) => 2,
        (0, 13..=17) => 3,
        (0, 18) => 4,
        (0, 19..=20) => 5,
        (0, 21..=22) => 6,
        (1, 7..=8) => 7,
        (1, 9..=12) => 8,
        (1, 13..=14) => 9,
        (1, 15..=16) => 10,
        (1, 17..=18) => 11,
        (_, _) => 12,
    }
}

/// IPD-15 to IPD-25: "HB08-09" to "HB21-22", "Weekend/ Holiday (HB16-20)" and
/// "(Other HB08-22)", "Night (HB00,01,23)", "(HB02-05)" and "(HB06-07)":
/// "winter night taking in hour 7" (02, order 5).
fn winter(day_type: u64, hour: u64) -> u64 {
    match (day_type, hour) {
        (_, 0 | 1 | 23) => 23,
        (_, 2..=5) => 24,
        (_, 6..=7) => 25,
        (0, 8..=9) => 15,
        (0, 10..=12) => 16,
        (0, 13..=15) => 17,
        (0, 16..=17) => 18,
        (0, 18..=20) => 19,
        (0, 21..=22) => 20,
        (1, 16..=20) => 21,
        (_, _) => 22,
    }
}

/// IPD-26 to IPD-33: "HB07-10" to "HB20-22", "Weekend/ Holiday (HB17-20)" and
/// "(Other HB07-22)", "Night (HB00,06,23)" and "(HB01-05)".
fn rest_of_year(day_type: u64, hour: u64) -> u64 {
    match (day_type, hour) {
        (_, 0 | 6 | 23) => 32,
        (_, 1..=5) => 33,
        (0, 7..=10) => 26,
        (0, 11..=14) => 27,
        (0, 15..=19) => 28,
        (0, 20..=22) => 29,
        (1, 17..=20) => 30,
        (_, _) => 31,
    }
}

/// Virtual supply.
const IMPORT: Published = [
    // HQ Wheel
    [
        [3_576, 5_609, 5_862, 3_771, 3_815, 3_115],
        [5_663, 2_922, 7_461, 3_745, 5_517, 3_136],
        [3_828, 3_465, 5_404, 3_754, 3_162, 2_760],
    ],
    // NE
    [
        [3_284, 6_612, 9_934, 3_147, 4_179, 3_478],
        [6_984, 3_628, 9_231, 5_122, 7_809, 4_709],
        [4_408, 3_974, 6_263, 4_543, 4_757, 3_572],
    ],
    // OH
    [
        [3_562, 5_482, 6_083, 3_621, 3_391, 3_054],
        [5_388, 2_501, 6_638, 3_509, 4_351, 2_800],
        [3_528, 3_355, 5_596, 4_314, 3_050, 2_668],
    ],
    // PJM
    [
        [3_195, 8_159, 13_042, 2_881, 3_103, 2_478],
        [6_100, 2_388, 7_299, 3_761, 4_829, 3_018],
        [3_608, 3_359, 6_054, 3_708, 3_126, 2_438],
    ],
    // NE CSC
    [
        [7_038, 22_365, 30_668, 11_781, 9_068, 4_717],
        [10_593, 6_574, 13_661, 10_860, 9_561, 5_186],
        [7_305, 6_447, 9_392, 8_145, 7_319, 4_461],
    ],
    // HQ Import
    [
        [3_322, 5_213, 5_447, 3_699, 3_578, 2_993],
        [5_318, 2_790, 6_968, 3_601, 5_450, 3_040],
        [3_487, 3_068, 5_335, 3_342, 2_913, 2_688],
    ],
    // HQ Cedars
    [
        [3_603, 5_696, 5_862, 3_839, 3_815, 3_152],
        [5_511, 2_957, 7_348, 3_745, 5_567, 3_183],
        [3_720, 3_429, 5_407, 3_820, 3_195, 2_760],
    ],
    // NE 1385
    [
        [7_021, 23_184, 28_529, 10_272, 9_022, 4_547],
        [10_674, 6_855, 13_980, 9_318, 9_302, 5_115],
        [7_622, 7_128, 9_462, 8_407, 7_469, 4_759],
    ],
    // PJM Neptune
    [
        [7_139, 21_103, 32_148, 10_081, 9_690, 4_412],
        [10_555, 6_510, 13_031, 9_353, 9_309, 5_067],
        [7_015, 6_882, 9_392, 7_751, 7_380, 4_551],
    ],
    // PJM VFT
    [
        [4_549, 13_628, 27_060, 4_781, 6_195, 4_584],
        [9_466, 6_768, 10_803, 6_711, 7_381, 4_931],
        [7_180, 6_284, 8_847, 6_213, 6_054, 3_938],
    ],
];

/// Virtual load.
const EXPORT: Published = [
    // HQ Wheel
    [
        [4_643, 5_657, 6_500, 5_184, 5_197, 3_866],
        [4_931, 3_541, 5_437, 4_758, 4_621, 4_302],
        [3_539, 3_304, 3_758, 3_459, 3_563, 3_541],
    ],
    // NE
    [
        [3_368, 5_115, 5_756, 3_837, 4_123, 3_408],
        [4_495, 3_651, 5_976, 4_565, 4_388, 3_922],
        [3_333, 3_253, 3_684, 3_362, 3_472, 3_247],
    ],
    // OH
    [
        [2_994, 4_145, 4_625, 3_690, 3_556, 3_388],
        [3_932, 3_148, 4_297, 3_459, 3_899, 3_458],
        [2_881, 2_835, 2_940, 2_897, 2_950, 3_082],
    ],
    // PJM
    [
        [3_189, 4_893, 5_703, 3_556, 4_000, 3_367],
        [3_798, 3_503, 5_235, 3_916, 3_840, 3_499],
        [3_022, 3_129, 3_472, 3_287, 3_166, 3_132],
    ],
    // NE CSC
    [
        [4_129, 8_857, 10_980, 5_997, 6_279, 4_373],
        [5_494, 4_939, 7_288, 6_595, 6_143, 4_760],
        [3_513, 4_064, 5_337, 4_745, 4_363, 3_937],
    ],
    // HQ Import
    [
        [5_697, 6_971, 7_564, 6_019, 4_876, 3_860],
        [5_331, 3_609, 5_802, 4_919, 4_785, 4_319],
        [3_820, 3_531, 3_914, 3_809, 3_740, 3_768],
    ],
    // HQ Cedars
    [
        [4_560, 5_529, 6_234, 4_715, 5_139, 3_826],
        [5_024, 3_558, 5_470, 4_714, 4_544, 4_264],
        [3_373, 3_227, 3_719, 3_410, 3_539, 3_522],
    ],
    // NE 1385
    [
        [4_380, 6_877, 9_750, 5_267, 5_206, 4_454],
        [5_346, 4_884, 7_507, 6_864, 6_650, 4_834],
        [3_625, 4_142, 5_309, 4_710, 4_368, 3_893],
    ],
    // PJM Neptune
    [
        [3_911, 8_187, 10_708, 5_424, 5_664, 4_215],
        [5_237, 4_765, 7_088, 6_474, 5_793, 4_647],
        [3_540, 3_958, 5_241, 4_695, 4_306, 3_892],
    ],
    // PJM VFT
    [
        [4_736, 4_817, 5_614, 4_293, 4_686, 3_953],
        [5_232, 5_384, 6_430, 5_084, 4_604, 4_134],
        [4_106, 4_935, 5_140, 4_204, 4_146, 3_699],
    ],
];

#[cfg(test)]
mod tests {
    use super::*;
    use std::collections::BTreeSet;

    fn entry(table: Table, bus: u64, month: u64, day_type: u64, hour: u64) -> (u64, u64) {
        let entry = lookup(OLDER, table, bus, month, day_type, hour).unwrap();
        (entry.group, entry.differential.unwrap())
    }

    fn group(month: u64, day_type: u64, hour: u64) -> u64 {
        entry(Table::Import, 1, month, day_type, hour).0
    }

    #[test]
    fn hour_22_on_a_weekday_is_group_4_in_july_hour_23_group_6() {
        assert_eq!(group(7, 0, 22), 4);
        assert_eq!(group(7, 0, 23), 6);
    }

    #[test]
    fn every_hour_of_a_weekday_and_of_a_weekend() {
        let weekday: Vec<u64> = (0..24).map(|hour| group(5, 0, hour)).collect();
        let weekend: Vec<u64> = (0..24).map(|hour| group(5, 1, hour)).collect();
        assert_eq!(
            weekday,
            [6, 6, 6, 6, 6, 6, 6, 1, 1, 1, 1, 2, 2, 2, 2, 3, 3, 3, 3, 4, 4, 4, 4, 6]
        );
        assert_eq!(
            weekend,
            [6, 6, 6, 6, 6, 6, 6, 5, 5, 5, 5, 5, 5, 5, 5, 5, 5, 5, 5, 5, 5, 5, 5, 6]
        );
    }

    #[test]
    fn every_month() {
        let first: Vec<u64> = (1..=12).map(|month| group(month, 0, 7)).collect();
        let night: Vec<u64> = (1..=12).map(|month| group(month, 1, 0)).collect();
        assert_eq!(first, [7, 7, 13, 13, 1, 1, 1, 1, 13, 13, 13, 7]);
        assert_eq!(night, [12, 12, 18, 18, 6, 6, 6, 6, 18, 18, 18, 12]);
    }

    #[test]
    fn all_360_lie_from_2388_to_32148_and_both_ends_are_imports() {
        let import: Vec<u64> = IMPORT.iter().flatten().flatten().copied().collect();
        let export: Vec<u64> = EXPORT.iter().flatten().flatten().copied().collect();
        assert_eq!(import.len() + export.len(), 360);
        assert!(import
            .iter()
            .chain(&export)
            .all(|differential| (2_388..=32_148).contains(differential)));
        assert_eq!(import.iter().min(), Some(&2_388));
        assert_eq!(import.iter().max(), Some(&32_148));
        assert_eq!(export.iter().min(), Some(&2_835));
        assert_eq!(export.iter().max(), Some(&10_980));
        assert_eq!(import.iter().sum::<u64>(), 1_171_046);
        assert_eq!(export.iter().sum::<u64>(), 830_141);
    }

    #[test]
    fn entries_as_the_appendix_prints_them() {
        // HQ Wheel, first table, first row.
        assert_eq!(entry(Table::Import, 1, 5, 0, 7), (1, 3576));
        assert_eq!(entry(Table::Import, 1, 12, 0, 7), (7, 5663));
        assert_eq!(entry(Table::Import, 1, 3, 0, 7), (13, 3828));
        // PJM, winter, HB11-14, and PJM Neptune, summer, HB15-18: the ends.
        assert_eq!(entry(Table::Import, 4, 1, 0, 14), (8, 2388));
        assert_eq!(entry(Table::Import, 9, 8, 0, 15), (3, 32148));
        // NE CSC, summer, HB15-18, in the other table.
        assert_eq!(entry(Table::Export, 5, 6, 0, 18), (3, 10980));
        // HQ Cedars, holiday, rest of year.
        assert_eq!(entry(Table::Export, 7, 11, 1, 22), (17, 3539));
        // PJM VFT, night, rest of year: the last number of each table.
        assert_eq!(entry(Table::Import, 10, 9, 1, 6), (18, 3938));
        assert_eq!(entry(Table::Export, 10, 4, 0, 23), (18, 3699));
    }

    /// Each edition with each table that it answers.
    const ANSWERED: [(u64, Table); 3] = [
        (OLDER, Table::Import),
        (OLDER, Table::Export),
        (NEWER, Table::Import),
    ];

    #[test]
    fn refusal_18_for_each_number_out_of_range() {
        let refused = Err(Refusal::Lookup);
        for (edition, table) in ANSWERED {
            let look =
                |bus, month, day_type, hour| lookup(edition, table, bus, month, day_type, hour);
            for far in [u64::MAX, 1 << 32] {
                assert_eq!(look(far, 7, 0, 12), refused);
                assert_eq!(look(1, far, 0, 12), refused);
                assert_eq!(look(1, 7, far, 12), refused);
                assert_eq!(look(1, 7, 0, far), refused);
            }
            for bus in [0, 11] {
                assert_eq!(look(bus, 7, 0, 12), refused);
            }
            for month in [0, 13] {
                assert_eq!(look(1, month, 0, 12), refused);
            }
            assert_eq!(look(1, 7, 2, 12), refused);
            assert_eq!(look(1, 7, 0, 24), refused);
            assert!(look(10, 12, 1, 23).is_ok());
            assert!(look(1, 1, 0, 0).is_ok());
        }
        assert_eq!(Refusal::Lookup.number(), 18);
    }

    #[test]
    fn refusal_18_for_an_unknown_edition_and_an_export_in_the_new_one() {
        let refused = Err(Refusal::Lookup);
        for (month, day_type, hour) in every_hour() {
            for bus in 1..=10 {
                let look = |edition, table| lookup(edition, table, bus, month, day_type, hour);
                for edition in [0, 3, 1 << 32, u64::MAX] {
                    assert_eq!(look(edition, Table::Import), refused);
                    assert_eq!(look(edition, Table::Export), refused);
                }
                assert_eq!(look(NEWER, Table::Export), refused);
                assert!(ANSWERED
                    .iter()
                    .all(|&(edition, table)| look(edition, table).is_ok()));
            }
        }
    }

    /// Every month, day type and hour.
    fn every_hour() -> impl Iterator<Item = (u64, u64, u64)> {
        (0..12 * 2 * 24).map(|i| (i / 48 + 1, i / 24 % 2, i % 24))
    }

    /// The newer chart's group; the same at every bus, with no differential.
    fn newer_group(month: u64, day_type: u64, hour: u64) -> u64 {
        let entry = lookup(NEWER, Table::Import, 1, month, day_type, hour).unwrap();
        assert_eq!(entry.differential, None);
        for bus in 2..=10 {
            let other = lookup(NEWER, Table::Import, bus, month, day_type, hour);
            assert_eq!(other, Ok(entry));
        }
        entry.group
    }

    /// The months of a season, and its rows in the words of 001.
    type PrintedSeason = (&'static [u64], &'static [&'static str]);

    const SUMMER_MONTHS: &[u64] = &[5, 6, 7, 8];
    const WINTER_MONTHS: &[u64] = &[12, 1, 2];
    const OTHER_MONTHS: &[u64] = &[3, 4, 9, 10, 11];

    const OLDER_ROWS: &[&str] = &[
        "HB07-10",
        "HB11-14",
        "HB15-18",
        "HB19-22",
        "Weekend/ Holiday (HB07-22)",
        "Night (HB23-06)",
    ];

    /// IPD-1 to IPD-18, and the groups of the exports with them.
    const OLDER_PRINTED: [PrintedSeason; SEASONS] = [
        (SUMMER_MONTHS, OLDER_ROWS),
        (WINTER_MONTHS, OLDER_ROWS),
        (OTHER_MONTHS, OLDER_ROWS),
    ];

    /// IPD-1 to IPD-33.
    const NEWER_PRINTED: [PrintedSeason; SEASONS] = [
        (
            SUMMER_MONTHS,
            &[
                "HB07-09",
                "HB10-12",
                "HB13-17",
                "HB18",
                "HB19-20",
                "HB21-22",
                "Weekend/ Holiday (HB07-08)",
                "Weekend/ Holiday (HB09-12)",
                "Weekend/ Holiday (HB13-14)",
                "Weekend/ Holiday (HB15-16)",
                "Weekend/ Holiday (HB17-18)",
                "Weekend/ Holiday (HB19-22)",
                "Night (HB00,23)",
                "Night (HB01-06)",
            ],
        ),
        (
            WINTER_MONTHS,
            &[
                "HB08-09",
                "HB10-12",
                "HB13-15",
                "HB16-17",
                "HB18-20",
                "HB21-22",
                "Weekend/ Holiday (HB16-20)",
                "Weekend/ Holiday (Other HB08-22)",
                "Night (HB00,01,23)",
                "Night (HB02-05)",
                "Night (HB06-07)",
            ],
        ),
        (
            OTHER_MONTHS,
            &[
                "HB07-10",
                "HB11-14",
                "HB15-19",
                "HB20-22",
                "Weekend/ Holiday (HB17-20)",
                "Weekend/ Holiday (Other HB07-22)",
                "Night (HB00,06,23)",
                "Night (HB01-05)",
            ],
        ),
    ];

    /// "Weekend/ Holiday" is one day type, "Night" any day; a row that has no
    /// such word is of ordinary weekdays.
    fn day_types(row: &str) -> &'static [u64] {
        if row.starts_with("Night") {
            &[0, 1]
        } else if row.starts_with("Weekend/ Holiday") {
            &[1]
        } else {
            &[0]
        }
    }

    /// "07-10", "23-06" or "18".
    fn span(text: &str) -> Vec<u64> {
        let (first, last) = text.split_once('-').unwrap_or((text, text));
        let [first, last] = [first, last].map(|hour| hour.parse::<u64>().unwrap());
        let more = (last + 24 - first) % 24;
        (first..=first + more).map(|hour| hour % 24).collect()
    }

    /// The hours that stand after "HB".
    fn hours_named(row: &str) -> Vec<u64> {
        let (_, hours) = row.split_once("HB").unwrap();
        let hours = hours.trim_end_matches(')');
        hours.split(',').flat_map(span).collect()
    }

    /// The hours of a row; "Other" has those that no other row of the season
    /// names for its day type.
    fn hours(row: &str, rows: &[&str]) -> Vec<u64> {
        let mut hours = hours_named(row);
        if row.contains("Other") {
            for other in rows.iter().filter(|&&other| other != row) {
                if day_types(other) == day_types(row) {
                    hours.retain(|hour| !hours_named(other).contains(hour));
                }
            }
        }
        hours
    }

    /// Each row of a printed chart that has an hour, by its group's number.
    fn rows_with(printed: &[PrintedSeason], (month, day_type, hour): (u64, u64, u64)) -> Vec<u64> {
        let rows = printed
            .iter()
            .flat_map(|&(months, rows)| rows.iter().map(move |&row| (months, rows, row)));
        (1..)
            .zip(rows)
            .filter(|(_, (months, _, _))| months.contains(&month))
            .filter(|(_, (_, _, row))| day_types(row).contains(&day_type))
            .filter(|(_, (_, rows, row))| hours(row, rows).contains(&hour))
            .map(|(group, _)| group)
            .collect()
    }

    #[test]
    fn every_month_day_type_and_hour_has_exactly_one_group_and_every_group_some_hour() {
        for (edition, table) in ANSWERED {
            let (printed, groups) = match edition {
                OLDER => (OLDER_PRINTED, 18),
                _ => (NEWER_PRINTED, 33),
            };
            let mut met = BTreeSet::new();
            for (month, day_type, hour) in every_hour() {
                let entry = lookup(edition, table, 1, month, day_type, hour).unwrap();
                let rows = rows_with(&printed, (month, day_type, hour));
                assert_eq!(rows, [entry.group], "{edition} {month} {day_type} {hour}");
                met.insert(entry.group);
            }
            assert!(met.into_iter().eq(1..=groups));
        }
    }

    #[test]
    fn summer_weekday_hour_18_is_alone_in_group_4() {
        for (month, day_type, hour) in every_hour() {
            let named = (5..=8).contains(&month) && day_type == 0 && hour == 18;
            assert_eq!(newer_group(month, day_type, hour) == 4, named);
        }
    }

    #[test]
    fn winter_night_takes_in_hour_7() {
        for month in [12, 1, 2] {
            for day_type in [0, 1] {
                assert_eq!(newer_group(month, day_type, 6), 25);
                assert_eq!(newer_group(month, day_type, 7), 25);
            }
            assert_eq!(newer_group(month, 0, 8), 15);
            assert_eq!(newer_group(month, 1, 8), 22);
        }
        // Night ends at hour 6 in the other seasons, and in the older chart.
        assert_eq!((newer_group(7, 0, 7), newer_group(7, 1, 7)), (1, 7));
        assert_eq!((newer_group(10, 0, 7), newer_group(10, 1, 7)), (26, 31));
        assert_eq!((group(1, 0, 7), group(1, 1, 7)), (7, 11));
    }

    #[test]
    fn other_hours_of_a_weekend_stand_on_both_sides() {
        let hours_of = |month, wanted| -> Vec<u64> {
            (0..24)
                .filter(|&hour| newer_group(month, 1, hour) == wanted)
                .collect()
        };
        assert_eq!(hours_of(1, 22), [8, 9, 10, 11, 12, 13, 14, 15, 21, 22]);
        assert_eq!(hours_of(1, 21), [16, 17, 18, 19, 20]);
        assert_eq!(
            hours_of(10, 31),
            [7, 8, 9, 10, 11, 12, 13, 14, 15, 16, 21, 22]
        );
        assert_eq!(hours_of(10, 30), [17, 18, 19, 20]);
    }

    #[test]
    fn every_month_of_the_newer_chart() {
        let first: Vec<u64> = (1..=12).map(|month| newer_group(month, 0, 8)).collect();
        let night: Vec<u64> = (1..=12).map(|month| newer_group(month, 1, 3)).collect();
        assert_eq!(first, [15, 15, 26, 26, 1, 1, 1, 1, 26, 26, 26, 15]);
        assert_eq!(night, [24, 24, 33, 33, 14, 14, 14, 14, 33, 33, 33, 24]);
    }
}

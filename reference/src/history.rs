//! The import test: whether an importer's history makes it exempt.

use crate::limits;
use crate::refusal::{require, Refusal};

/// A window with this many scheduled bids, or more, can count.
pub const ENOUGH_BIDS: u64 = 50;

/// One window: "the scheduled bids, their MWh and the MWh settled at a loss".
#[derive(Clone, Copy, Debug, Default, PartialEq, Eq)]
pub struct Window {
    /// The scheduled bids.
    pub bids: u64,
    /// Their MWh.
    pub mwh: u64,
    /// The MWh settled at a loss.
    pub loss: u64,
}

impl Window {
    /// "Each 0 to 10^9."
    fn in_range(&self) -> bool {
        [self.bids, self.mwh, self.loss]
            .iter()
            .all(|number| limits::HISTORY.contains(number))
    }

    fn loss_within_mwh(&self) -> bool {
        self.loss <= self.mwh
    }

    /// No number below that of the shorter window.
    fn covers(&self, shorter: &Window) -> bool {
        self.bids >= shorter.bids && self.mwh >= shorter.mwh && self.loss >= shorter.loss
    }

    fn has_enough_bids(&self) -> bool {
        self.bids >= ENOUGH_BIDS
    }

    /// "4 x loss is below its MWh."
    fn loses_little(&self) -> bool {
        4 * i128::from(self.loss) < i128::from(self.mwh)
    }
}

/// "Exempt exactly when a window counts and 4 x loss is below its MWh."
///
/// Refusal 17: "out of range, loss above MWh, or any six-month number below
/// its three-month one."
pub fn import_test(three_months: Window, six_months: Window) -> Result<bool, Refusal> {
    let agree = three_months.in_range()
        && six_months.in_range()
        && three_months.loss_within_mwh()
        && six_months.loss_within_mwh()
        && six_months.covers(&three_months);
    require(agree, Refusal::WindowsContradict)?;
    let window = window_that_counts(three_months, six_months);
    Ok(window.map_or(false, |window| window.loses_little()))
}

/// "If the three-month bids are 50 or more that window counts, else if the
/// six-month bids are 50 or more that one, else none."
fn window_that_counts(three_months: Window, six_months: Window) -> Option<Window> {
    if three_months.has_enough_bids() {
        Some(three_months)
    } else if six_months.has_enough_bids() {
        Some(six_months)
    } else {
        None
    }
}

#[cfg(test)]
mod tests {
    use super::*;

    const MOST: u64 = 1_000_000_000;

    fn window(bids: u64, mwh: u64, loss: u64) -> Window {
        Window { bids, mwh, loss }
    }

    #[test]
    fn loss_24_of_100_mwh_over_50_bids_is_exempt_25_is_not() {
        let none = window(0, 0, 0);
        for three in [none, window(50, 100, 24)] {
            assert_eq!(import_test(three, window(50, 100, 24)), Ok(true));
        }
        for three in [none, window(50, 100, 25)] {
            assert_eq!(import_test(three, window(50, 100, 25)), Ok(false));
        }
    }

    #[test]
    fn the_three_month_window_comes_first() {
        // Three months count and lose little; six months lose much.
        assert_eq!(
            import_test(window(50, 100, 0), window(60, 200, 100)),
            Ok(true)
        );
        // Three months count and lose much; six months lose little.
        assert_eq!(
            import_test(window(50, 100, 25), window(60, 9000, 25)),
            Ok(false)
        );
        // With 49 bids in three months the six months decide.
        assert_eq!(
            import_test(window(49, 100, 25), window(50, 9000, 25)),
            Ok(true)
        );
        assert_eq!(
            import_test(window(49, 100, 0), window(50, 200, 100)),
            Ok(false)
        );
    }

    #[test]
    fn without_50_bids_no_window_counts() {
        assert_eq!(
            import_test(window(49, 100, 0), window(49, 100, 0)),
            Ok(false)
        );
        assert_eq!(import_test(window(0, 0, 0), window(0, 0, 0)), Ok(false));
    }

    #[test]
    fn no_mwh_is_not_exempt() {
        assert_eq!(import_test(window(50, 0, 0), window(50, 0, 0)), Ok(false));
        assert_eq!(import_test(window(50, 1, 0), window(50, 1, 0)), Ok(true));
    }

    #[test]
    fn refusal_17_for_each_number_out_of_range() {
        let most = window(MOST, MOST, MOST);
        assert_eq!(import_test(most, most), Ok(false));
        assert_eq!(import_test(window(0, 0, 0), most), Ok(false));
        for above in [MOST + 1, u64::MAX] {
            let beyond = [
                window(above, MOST, MOST),
                window(MOST, above, MOST),
                window(MOST, above, above),
            ];
            for six in beyond {
                let answer = import_test(window(0, 0, 0), six);
                assert_eq!(answer, Err(Refusal::WindowsContradict));
                let answer = import_test(six, six);
                assert_eq!(answer, Err(Refusal::WindowsContradict));
            }
        }
        assert_eq!(Refusal::WindowsContradict.number(), 17);
    }

    #[test]
    fn refusal_17_for_loss_above_mwh() {
        let fine = window(50, 100, 100);
        assert_eq!(import_test(fine, fine), Ok(false));
        let above = window(50, 100, 101);
        let wide = window(50, 200, 200);
        assert_eq!(import_test(above, wide), Err(Refusal::WindowsContradict));
        let none = window(0, 0, 0);
        assert_eq!(import_test(none, above), Err(Refusal::WindowsContradict));
    }

    #[test]
    fn refusal_17_for_a_six_month_number_below_its_three_month_one() {
        let three = window(60, 100, 10);
        assert_eq!(import_test(three, three), Ok(true));
        for six in [
            window(59, 100, 10),
            window(60, 99, 10),
            window(60, 100, 9),
            window(0, 0, 0),
        ] {
            assert_eq!(import_test(three, six), Err(Refusal::WindowsContradict));
        }
    }
}

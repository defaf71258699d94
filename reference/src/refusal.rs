//! "Turned away, and why": the eighteen refusals of document 01 and the three of
//! the desk tape (02, order 8), with their numbers.

/// Why a message, an import test, a lookup or a tape is turned away.
///
/// "Checked in this order; the first that applies is given, and only those
/// that concern the message."
#[derive(Clone, Copy, Debug, PartialEq, Eq, PartialOrd, Ord, Hash)]
pub enum Refusal {
    /// 1: "book not sound". "1 gains the totals" (02, order 1).
    BookNotSound = 1,
    /// 2: "kind not 1 to 4". "Kinds run to 5" (02, order 3); "kinds run to 6"
    /// (02, order 6).
    Kind = 2,
    /// 3: "path out of range"; of a close, any listed path. "3 above zone 11"
    /// (02, order 6).
    Path = 3,
    /// 4: "hour out of range".
    Hour = 4,
    /// 5: "point count out of range or lists unequal"; "an interval too long,
    /// all four empty, or a path listed twice" (02, order 3). Kind 6 has "no
    /// points or prices" (02, order 6), so no count of them is its own.
    Points = 5,
    /// 6: "a quantity out of range"; "each side's MWh is at most 10,000" (02,
    /// order 6).
    Quantity = 6,
    /// 7: "a price out of range or not 0 where it must be".
    Price = 7,
    /// 8: "differential out of range", of either side too.
    Differential = 8,
    /// 9: "amount out of range".
    Amount = 9,
    /// 10: "open: key already open".
    KeyAlreadyOpen = 10,
    /// 11: "other keyed messages: key not open"; "when the hour has no pending
    /// bid or the paths aren't those pending" (02, order 3).
    KeyNotOpen = 11,
    /// 12: "wrong stage"; "for posting kind 5" (02, order 3); "12 for finish"
    /// of kind 6 (02, order 6), and for the post that is not its own.
    WrongStage = 12,
    /// 13: "schedule above bid MWh"; "13 for either side" (02, order 6).
    ScheduleAboveBid = 13,
    /// 14: "open or revise while suspended".
    Suspended = 14,
    /// 15: "open with 256 records".
    BookFull = 15,
    /// 16: "open: held + requirement above support; revise: the new
    /// requirement is above the old and held afterwards is above support".
    /// "Never for opening kind 5" (02, order 3).
    AboveSupport = 16,
    /// 17: "import test: windows contradict".
    WindowsContradict = 17,
    /// 18: "lookup: bus, month, day type or hour out of range"; "18 covers an
    /// unknown edition and an export lookup in the new one" (02, order 5).
    Lookup = 18,
    /// 19: a tape "cut short" (02, order 8).
    CutShort = 19,
    /// 20: "filler not zero" (02, order 8).
    Filler = 20,
    /// 24: "a lent list or the writer's buffer too short" (02, order 8). On a
    /// tape 19 and 20 stand before 2 to 9, and this one after them.
    LentTooShort = 24,
}

impl Refusal {
    /// The refusal's number in the table.
    pub fn number(self) -> u64 {
        self as u64
    }
}

/// Turns a condition that must hold into the refusal given when it doesn't.
pub(crate) fn require(holds: bool, refusal: Refusal) -> Result<(), Refusal> {
    if holds {
        Ok(())
    } else {
        Err(refusal)
    }
}

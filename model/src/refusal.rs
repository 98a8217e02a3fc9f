//! The refusals and their numbers (document 01, "Refusals in order").

/// Variants have the engine's names; [`Refusal::word`] gives document 01's
/// own words, so that tables can be compared.
#[derive(Clone, Copy, Debug, PartialEq, Eq)]
pub enum Refusal {
    Pool = 1,
    Length = 2,
    Recovery = 3,
    /// "Cuts" in document 01.
    Attachments = 4,
    Hazard = 5,
    Discount = 6,
    Accrual = 7,
    Coupon = 8,
    Withdrawn = 9,
    Unissued = 10,
    NoWalk = 11,
    /// "Soiled" in document 01.
    OverCeiling = 12,
    OutOfSteps = 13,
    OffTree = 14,
    FlatHedge = 15,
    OffScale = 16,
    Live = 17,
    Unknown = 18,
    CutShort = 19,
    TooMany = 20,
    /// Checked after 7.
    Elapsed = 21,
    /// Checked before 5.
    Periods = 25,
    /// Of a book alone, checked after 2.
    Book = 28,
    /// Of a call for turns alone, its only check.
    Turns = 29,
    /// Of a coupon in packed decimal alone, checked before 8.
    Digit = 30,
}

impl Refusal {
    /// In the order of their numbers: 1 to 21, then 25 and 28 to 30.
    pub const ALL: [Refusal; 25] = [
        Refusal::Pool,
        Refusal::Length,
        Refusal::Recovery,
        Refusal::Attachments,
        Refusal::Hazard,
        Refusal::Discount,
        Refusal::Accrual,
        Refusal::Coupon,
        Refusal::Withdrawn,
        Refusal::Unissued,
        Refusal::NoWalk,
        Refusal::OverCeiling,
        Refusal::OutOfSteps,
        Refusal::OffTree,
        Refusal::FlatHedge,
        Refusal::OffScale,
        Refusal::Live,
        Refusal::Unknown,
        Refusal::CutShort,
        Refusal::TooMany,
        Refusal::Elapsed,
        Refusal::Periods,
        Refusal::Book,
        Refusal::Turns,
        Refusal::Digit,
    ];

    pub fn number(self) -> u8 {
        self as u8
    }

    /// Those of a deck's commands; all others are met by calls.
    pub fn stops_a_deck(self) -> bool {
        matches!(
            self,
            Refusal::Unknown | Refusal::CutShort | Refusal::TooMany
        )
    }

    pub fn word(self) -> &'static str {
        match self {
            Refusal::Pool => "pool",
            Refusal::Length => "length",
            Refusal::Recovery => "recovery",
            Refusal::Attachments => "cuts",
            Refusal::Hazard => "hazard",
            Refusal::Discount => "discount",
            Refusal::Accrual => "accrual",
            Refusal::Coupon => "coupon",
            Refusal::Withdrawn => "withdrawn",
            Refusal::Unissued => "unissued",
            Refusal::NoWalk => "no walk",
            Refusal::OverCeiling => "soiled",
            Refusal::OutOfSteps => "out of steps",
            Refusal::OffTree => "off tree",
            Refusal::FlatHedge => "flat hedge",
            Refusal::OffScale => "off scale",
            Refusal::Live => "live",
            Refusal::Unknown => "unknown",
            Refusal::CutShort => "cut short",
            Refusal::TooMany => "too many",
            Refusal::Elapsed => "elapsed",
            Refusal::Periods => "periods",
            Refusal::Book => "book",
            Refusal::Turns => "turns",
            Refusal::Digit => "digit",
        }
    }
}

/// One check of a call.
pub fn refuse_if(fault: bool, refusal: Refusal) -> Result<(), Refusal> {
    if fault {
        Err(refusal)
    } else {
        Ok(())
    }
}

//! What calls are given and hand back, besides lists.

/// A walk, as the engine takes it and hands it back. The rows go beside it.
#[repr(C)]
#[derive(Clone, Copy, Debug, Default, PartialEq, Eq, Hash)]
pub struct Walk {
    pub open: bool,
    /// The number of the sheet that was opened.
    pub number: u8,
    /// The step at which the rows stand: the last one after an open, 0 at
    /// the root.
    pub position: usize,
}

impl Walk {
    /// What a caller starts with: closed, all zeros.
    pub const FRESH: Walk = Walk {
        open: false,
        number: 0,
        position: 0,
    };
}

/// A walk of a turn table, and its steps left.
#[repr(C)]
#[derive(Clone, Copy, Debug, Default, PartialEq, Eq, Hash)]
pub struct Turn {
    pub walk: Walk,
    /// At most [`MAX_STEPS`](crate::MAX_STEPS).
    pub left: u16,
}

/// What a tranche or the index is worth at a default count.
#[derive(Clone, Copy, Debug, PartialEq, Eq, Hash)]
pub struct Value {
    pub default_leg: u64,
    /// For a coupon of 100 percent a year.
    pub premium_leg: u64,
    /// 10,000,000 x default leg - coupon x premium leg, so in ten-millionths
    /// of a unit.
    pub net_value: i64,
}

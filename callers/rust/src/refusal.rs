//! Why a call is refused.

use std::error::Error;
use std::fmt;

/// Makes the enum, and its numbers and words, from one table.
macro_rules! refusals {
    ($($(#[$doc:meta])* $name:ident, $number:literal, $word:literal;)*) => {
        /// Why a call is refused, in the order in which a call checks. A
        /// later engine may have more, so a `match` needs an arm for them:
        ///
        /// ```
        /// # fn shown(refusal: lavroudem::Refusal) {
        /// match refusal {
        ///     lavroudem::Refusal::Pool => println!("no such pool"),
        #[doc = concat!($("# lavroudem::Refusal::", stringify!($name), " => {}\n",)*)]
        /// #   lavroudem::Refusal::Other(_) => {}
        ///     // And the others that there are by now.
        ///     _ => println!("{refusal}"),
        /// }
        /// # }
        /// ```
        ///
        /// Without it the program is not compiled:
        ///
        /// ```compile_fail,E0004
        /// # fn shown(refusal: lavroudem::Refusal) {
        /// match refusal {
        ///     lavroudem::Refusal::Pool => println!("no such pool"),
        #[doc = concat!($("# lavroudem::Refusal::", stringify!($name), " => {}\n",)*)]
        /// #   lavroudem::Refusal::Other(_) => {}
        ///     // And the others that there are by now.
        /// }
        /// # }
        /// ```
        #[derive(Clone, Copy, Debug, PartialEq, Eq, Hash)]
        #[non_exhaustive]
        pub enum Refusal {
            $($(#[$doc])* $name,)*
            /// A number that this crate has no name for. The engine that it
            /// is written for answers none; a later one might.
            Other(u8),
        }

        impl Refusal {
            /// The refusal of a number; none for 0, which is an acceptance.
            pub fn from_number(number: u8) -> Option<Refusal> {
                match number {
                    0 => None,
                    $($number => Some(Refusal::$name),)*
                    other => Some(Refusal::Other(other)),
                }
            }

            /// The number that listings and C callers see.
            pub fn number(self) -> u8 {
                match self {
                    $(Refusal::$name => $number,)*
                    Refusal::Other(number) => number,
                }
            }

            /// The refusal in a word or two.
            pub fn word(self) -> &'static str {
                match self {
                    $(Refusal::$name => $word,)*
                    Refusal::Other(_) => "other",
                }
            }
        }
    };
}

refusals! {
    /// Names, steps or tranches are 0 or too many.
    Pool, 1, "pool";
    /// A list has another length than it should.
    Length, 2, "length";
    /// The lists of a book are of unlike length or have more than
    /// [`MAX_POSITIONS`](crate::MAX_POSITIONS) entries, or a nominal or net
    /// value is out of its range.
    Book, 28, "book";
    /// A turn table is empty or has more than [`MAX_WALKS`](crate::MAX_WALKS)
    /// walks, the place lies outside of it, steps left are more than
    /// [`MAX_STEPS`](crate::MAX_STEPS), or the list has more than
    /// [`MAX_PLACES`](crate::MAX_PLACES) bytes.
    Turns, 29, "turns";
    /// Above 1.
    Recovery, 3, "recovery";
    /// Attachment points are not strictly rising, or above 1.
    Attachments, 4, "cuts";
    /// Starts are not strictly rising, not from 1, or above steps.
    Periods, 25, "periods";
    /// One is above 1.
    Hazard, 5, "hazard";
    /// One is 0 or above 1.
    Discount, 6, "discount";
    /// One is above a year, their sum above ten, or the last is 0.
    Accrual, 7, "accrual";
    /// One is above the accrual of the next premium date, at its step or after.
    Elapsed, 21, "elapsed";
    /// A half byte of a packed coupon is above 9.
    Digit, 30, "digit";
    /// One is above [`MAX_COUPON`](crate::MAX_COUPON).
    Coupon, 8, "coupon";
    /// The register says so.
    Withdrawn, 9, "withdrawn";
    /// The register says so.
    Unissued, 10, "unissued";
    /// The walk is closed, of another number, or beyond the last step.
    NoWalk, 11, "no walk";
    /// An entry of the rows is over its ceiling.
    OverCeiling, 12, "soiled";
    /// Back beyond the root, or forward beyond the last step.
    OutOfSteps, 13, "out of steps";
    /// There is no such tranche or default count.
    OffTree, 14, "off tree";
    /// The index does not move with the next default.
    FlatHedge, 15, "flat hedge";
    /// The ratio is a million or more, of either sign.
    OffScale, 16, "off scale";
    /// Issue of a live number.
    Live, 17, "live";
    /// No such command. Only a deck's listing has this and the next two.
    Unknown, 18, "unknown";
    /// The deck ends within a command.
    CutShort, 19, "cut short";
    /// Entries of a list, pools, or bytes of a deck.
    TooMany, 20, "too many";
}

impl fmt::Display for Refusal {
    fn fmt(&self, f: &mut fmt::Formatter<'_>) -> fmt::Result {
        write!(f, "refusal {}, {}", self.number(), self.word())
    }
}

impl Error for Refusal {}

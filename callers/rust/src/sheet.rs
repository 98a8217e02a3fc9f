//! A sheet as a caller brings it.

use crate::archive::{Layout, Span};
use crate::lent;
use crate::open_walk::OpenWalk;
use crate::refusal::Refusal;
use crate::{MAX_NAMES, MAX_TRANCHES};

/// A sheet's figures but for its lists.
#[repr(C)]
#[derive(Clone, Copy, Debug, PartialEq, Eq, Hash)]
pub struct Pool {
    pub names: usize,
    pub steps: usize,
    /// The index not counted. As a tranche number this is the index.
    pub tranches: usize,
    pub recovery: u64,
    /// The sheet number, by which the register knows it.
    pub number: u8,
}

/// The lists of a sheet. Hazards that stay the same throughout are one
/// period, which starts at step 1. Here they rise at step 3:
///
/// ```
/// use lavroudem::{Lists, Pool, Refusal, Sheet};
///
/// let pool = Pool {
///     names: 2,
///     steps: 3,
///     tranches: 1,
///     recovery: 0,
///     number: 7,
/// };
/// let lists = Lists {
///     attachments: &[0, 1_000_000_000],
///     starts: &[1, 3],
///     hazards: &[100_000_000, 200_000_000, 300_000_000, 400_000_000],
///     discounts: &[1_000_000_000; 3],
///     accruals: &[0, 0, 1_000_000_000],
///     elapsed: &[0; 3],
///     coupons: &[1_000_000, 500_000],
/// };
/// let mut register = lavroudem::BLANK_REGISTER;
/// lavroudem::issue(&mut register, pool.number)?;
///
/// let sheet = Sheet::new(pool, lists);
/// let chances = sheet.forward(&register, 3)?;
/// assert_eq!(chances, [567_000_000, 345_000_000, 88_000_000]);
///
/// // The second period would start with the first.
/// let starts = &[1, 1];
/// let sheet = Sheet::new(pool, Lists { starts, ..lists });
/// assert_eq!(sheet.forward(&register, 3), Err(Refusal::Periods));
/// # Ok::<(), Refusal>(())
/// ```
#[derive(Clone, Copy, Debug, Default, PartialEq, Eq, Hash)]
pub struct Lists<'a> {
    /// tranches + 1 of them, strictly rising. Tranche j lies between entries
    /// j and j + 1.
    pub attachments: &'a [u64],
    /// 1 to [`MAX_PERIODS`](crate::MAX_PERIODS) of them, the first 1, strictly
    /// rising, none above steps. Entry p is the first step of period p.
    pub starts: &'a [u64],
    /// As many as names for each start, period by period. Entry p x names + k
    /// is the chance in period p that a step takes k defaults to k + 1. The
    /// move to a step goes by the period that holds that step.
    pub hazards: &'a [u64],
    /// As many as steps. Entry i - 1 brings cash from step i to step i - 1.
    pub discounts: &'a [u64],
    /// As many as steps. Entry i - 1 is paid at step i; 0 if that is no
    /// premium date.
    pub accruals: &'a [u64],
    /// As many as steps. Entry i - 1 is the time since the last premium date
    /// that a default into step i still pays for: it brings the premium side
    /// this times what the default takes off the outstanding nominal. At most
    /// the accrual of the next premium date, at step i or after it; 0 for
    /// nothing.
    pub elapsed: &'a [u64],
    /// tranches + 1 of them, that of the index last.
    pub coupons: &'a [u64],
}

/// A sheet, with numbers of its own. It may have any content; each call
/// checks it.
#[derive(Clone, Debug, PartialEq, Eq, Hash)]
pub struct Sheet {
    pub(crate) layout: Layout,
    /// The lists, one after the other.
    pub(crate) numbers: Vec<u64>,
}

impl Sheet {
    /// Copies the lists. One of another length than the pool asks for is the
    /// engine's to refuse.
    pub fn new(pool: Pool, lists: Lists) -> Sheet {
        let mut numbers = Vec::new();
        let mut append = |list: &[u64]| {
            let at = numbers.len();
            numbers.extend_from_slice(list);
            Span {
                at,
                length: list.len(),
            }
        };
        let layout = Layout {
            pool,
            attachments: append(lists.attachments),
            starts: append(lists.starts),
            hazards: append(lists.hazards),
            discounts: append(lists.discounts),
            accruals: append(lists.accruals),
            elapsed: append(lists.elapsed),
            coupons: append(lists.coupons),
        };
        Sheet { layout, numbers }
    }

    pub fn pool(&self) -> &Pool {
        &self.layout.pool
    }

    pub fn lists(&self) -> Lists<'_> {
        let list = |span: &Span| &self.numbers[span.at..span.at + span.length];
        Lists {
            attachments: list(&self.layout.attachments),
            starts: list(&self.layout.starts),
            hazards: list(&self.layout.hazards),
            discounts: list(&self.layout.discounts),
            accruals: list(&self.layout.accruals),
            elapsed: list(&self.layout.elapsed),
            coupons: list(&self.layout.coupons),
        }
    }

    /// Starts a walk at the last step, with rows of its own. Refusals 1 to 10,
    /// 21 and 25.
    pub fn open(&self, register: &[u8]) -> Result<OpenWalk<'_>, Refusal> {
        OpenWalk::open(self, register)
    }

    /// The chance of each default count, 0 to names, after so many steps from
    /// no default, in billionths. Refusals 1 to 10, 13, 21 and 25.
    pub fn forward(&self, register: &[u8], steps: usize) -> Result<Vec<u64>, Refusal> {
        let mut row = vec![0; self.forward_row_length()];
        lent::forward(self, register, &mut row, steps)?;
        Ok(row)
    }

    /// The length of both rows that [`lent`] takes: an entry for each tranche
    /// and the index, by default count from 0 to names. 0 for a sheet with
    /// more names or tranches than there may be, which no call accepts.
    pub fn row_length(&self) -> usize {
        if self.pool().tranches > MAX_TRANCHES {
            return 0;
        }
        (self.pool().tranches + 1) * self.forward_row_length()
    }

    /// The length of the row that [`lent::forward`] fills; 0 for a sheet with
    /// more names than there may be.
    pub fn forward_row_length(&self) -> usize {
        if self.pool().names > MAX_NAMES {
            return 0;
        }
        self.pool().names + 1
    }
}

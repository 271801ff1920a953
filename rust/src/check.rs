//! The check of a listing (document 01, 'Reading and checking').

use crate::{foreign, outcome, Refusal};
use std::fmt;

/// What an accepted check returns.
#[derive(Clone, Copy, Debug, PartialEq, Eq)]
pub struct Checked {
    /// How many windows the pattern matches.
    pub found: usize,
    /// How many it does not match.
    pub refused: usize,
}

/// Why a check accepts no listing.
#[derive(Clone, Copy, Debug, PartialEq, Eq)]
pub enum CheckRefusal {
    /// By text or pattern: the listing is not looked at.
    Refused(Refusal),
    /// By [`Refusal::ListingForm`]: a record of another kind than is due there, a cut or missing one, or bytes left
    /// over.
    ListingForm {
        /// The place of the record's first byte, or the listing's length where a record is missing.
        at: usize,
    },
    /// By [`Refusal::ListingFalse`]: a whole record of a kind that is due there, which states what is not so.
    ListingFalse {
        /// The place of the record's first byte.
        at: usize,
    },
}

impl CheckRefusal {
    /// The refusal alone.
    pub fn refusal(self) -> Refusal {
        match self {
            CheckRefusal::Refused(why) => why,
            CheckRefusal::ListingForm { .. } => Refusal::ListingForm,
            CheckRefusal::ListingFalse { .. } => Refusal::ListingFalse,
        }
    }
}

impl fmt::Display for CheckRefusal {
    /// As document 01's program prints a refusal, and then the place, as a [`ReadRefusal`](crate::ReadRefusal) has it.
    fn fmt(&self, f: &mut fmt::Formatter) -> fmt::Result {
        match self {
            CheckRefusal::Refused(why) => why.fmt(f),
            CheckRefusal::ListingForm { at } | CheckRefusal::ListingFalse { at } => {
                write!(f, "{} at {at}", self.refusal())
            }
        }
    }
}

impl std::error::Error for CheckRefusal {}

/// Whether a listing, whoever wrote it, is one of this text and this pattern of `height` by `width` cells: how many
/// windows it has as found and how many as refused, or its first bad record.
///
/// Refused by [`Refusal::SideRange`], [`Refusal::CellCount`] and [`Refusal::TooLarge`], in this order, and then by
/// [`Refusal::ListingForm`] or [`Refusal::ListingFalse`], whichever the first bad record earns.
///
/// A mismatch need not be the one that [`search`](crate::search) writes: any two cells will do that are alike on the
/// side that the kind says, and on no other.
///
/// ```
/// use colourway::{check, CheckRefusal, Checked};
///
/// let text = [7, 7, 3, 3, 7, 7];
/// let pattern = [1, 1, 2, 1];
/// let mut listing = [
///     1, 0, 0, // found at row 0, column 0
///     2, 1, 7, // symbol 1 is 7 there
///     2, 2, 3, // symbol 2 is 3 there
///     3, 0, 1, 0, 0, 0, 1, // refused at row 0, column 1: cells (0, 0) and (0, 1) are alike in the pattern only
///     5, 0, 1, 0, 1, // one found, one refused
/// ];
/// let checked = check(&text, 2, 3, &pattern, 2, 2, &listing)?;
/// assert_eq!(checked, Checked { found: 1, refused: 1 });
///
/// // Symbol 1 is not 3 there.
/// listing[5] = 3;
/// let refusal = check(&text, 2, 3, &pattern, 2, 2, &listing).unwrap_err();
/// assert_eq!(refusal, CheckRefusal::ListingFalse { at: 3 });
/// assert_eq!(refusal.to_string(), "refused 7 at 3");
/// # Ok::<(), CheckRefusal>(())
/// ```
pub fn check(
    text: &[u8],
    rows: usize,
    columns: usize,
    pattern: &[u8],
    height: usize,
    width: usize,
    listing: &[u8],
) -> Result<Checked, CheckRefusal> {
    let mut totals = [0; 2];
    let outcome = check_into(
        text,
        rows,
        columns,
        pattern,
        height,
        width,
        listing,
        &mut totals,
    );
    let [first, second] = totals;
    match outcome {
        Ok(()) => Ok(Checked {
            found: first,
            refused: second,
        }),
        Err(Refusal::ListingForm) => Err(CheckRefusal::ListingForm { at: first }),
        Err(Refusal::ListingFalse) => Err(CheckRefusal::ListingFalse { at: first }),
        Err(why) => Err(CheckRefusal::Refused(why)),
    }
}

/// [`check`] with its totals in what is lent to it: found and refused.
///
/// [`Refusal::ListingForm`] and [`Refusal::ListingFalse`] have the place for the first and leave the second; any other
/// refusal leaves both.
#[allow(clippy::too_many_arguments)]
pub fn check_into(
    text: &[u8],
    rows: usize,
    columns: usize,
    pattern: &[u8],
    height: usize,
    width: usize,
    listing: &[u8],
    totals: &mut [usize; 2],
) -> Result<(), Refusal> {
    // SAFETY: each slice is passed as it is, a pointer with its own length; the totals are two.
    outcome(unsafe {
        foreign::colourway_check(
            text.as_ptr(),
            text.len(),
            rows,
            columns,
            pattern.as_ptr(),
            pattern.len(),
            height,
            width,
            listing.as_ptr(),
            listing.len(),
            totals,
        )
    })
}

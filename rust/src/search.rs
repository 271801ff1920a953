//! The search with its listing (document 01, 'Search and listing'), in one call. `count_list` has it in two, `scales`
//! for patterns that are enlarged.

use crate::{foreign, outcome, Refusal};
use std::fmt;

/// What a search is lent. Each buffer may be longer than it needs to be: what lies beyond stays as it was. At a scale,
/// `width` and the windows are those of the enlarged pattern ([`search_scaled`](crate::search_scaled)).
#[derive(Debug)]
pub struct Buffers<'a> {
    /// At least `rows * width` entries, in which the search works. It leaves zeros in them.
    pub links: &'a mut [u16],
    /// At least an entry a window: the number of different symbols in it, as
    /// [`distinct_counts`](crate::distinct_counts) has it.
    pub counts: &'a mut [u16],
    /// At least a byte a window: 1 where the pattern matches, 0 where it does not (document 01's marks).
    pub flags: &'a mut [u8],
    /// The listing goes to its first bytes; [`records`](crate::records) reads them.
    pub listing: &'a mut [u8],
}

/// What an accepted search returns, and either of its two halves, [`count`](crate::count) and [`list`](crate::list). Of
/// a search at every scale ([`search_scales`](crate::search_scales)) they are the sums.
#[derive(Clone, Copy, Debug, PartialEq, Eq)]
pub struct Totals {
    /// How many windows the pattern matches.
    pub found: usize,
    /// How many it does not match.
    pub refused: usize,
    /// How many bytes the listing has.
    pub length: usize,
}

/// Why a search, or a [`list`](crate::list), gives no totals.
#[derive(Clone, Copy, Debug, PartialEq, Eq)]
pub enum SearchRefusal {
    /// By the input, or a buffer other than the listing: nothing is changed.
    Refused(Refusal),
    /// By [`Refusal::ListingBufferShort`]: the listing buffer is untouched; a search leaves flags, counts and links as
    /// where it is accepted.
    ListingBufferShort {
        /// How many bytes the listing has.
        needed: usize,
    },
}

impl SearchRefusal {
    /// The refusal alone.
    pub fn refusal(self) -> Refusal {
        match self {
            SearchRefusal::Refused(why) => why,
            SearchRefusal::ListingBufferShort { .. } => Refusal::ListingBufferShort,
        }
    }
}

impl fmt::Display for SearchRefusal {
    /// As document 01's program prints it.
    fn fmt(&self, f: &mut fmt::Formatter) -> fmt::Result {
        self.refusal().fmt(f)
    }
}

impl std::error::Error for SearchRefusal {}

/// The totals by name.
pub(crate) fn named([found, refused, length]: [usize; 3]) -> Totals {
    Totals {
        found,
        refused,
        length,
    }
}

/// What an operation that writes a listing answers, typed: the totals, or the refusal with what it returns.
pub(crate) fn typed(
    outcome: Result<(), Refusal>,
    totals: [usize; 3],
) -> Result<Totals, SearchRefusal> {
    let totals = named(totals);
    match outcome {
        Ok(()) => Ok(totals),
        Err(Refusal::ListingBufferShort) => Err(SearchRefusal::ListingBufferShort {
            needed: totals.length,
        }),
        Err(why) => Err(SearchRefusal::Refused(why)),
    }
}

/// Compares the pattern of `height` by `width` cells with every window of a text, and lists what
/// [`one_window`](crate::one_window) answers for each, row by row of corners: a match with its pairs, or a mismatch
/// with its two cells.
///
/// Refused by [`Refusal::SideRange`], [`Refusal::CellCount`], [`Refusal::TooLarge`], [`Refusal::LinksBufferShort`],
/// [`Refusal::WindowBufferShort`] and [`Refusal::ListingBufferShort`], in this order. The last one tells the length
/// needed.
///
/// There are `(rows - height + 1) * (columns - width + 1)` windows. With `d` symbols in the pattern a match takes `3 +
/// 3 * d` bytes of the listing, a mismatch 7 and the closing 5.
///
/// A search is [`count`](crate::count) followed by [`list`](crate::list): call these two where the room for the listing
/// is to be found first. A search that is lent no room for it tells the length too:
///
/// ```
/// use colourway::{search, Buffers, SearchRefusal, Totals};
///
/// // Document 01's first draft.
/// let first_draft = |listing: &mut [u8]| {
///     let buffers = Buffers {
///         links: &mut [0; 4],
///         counts: &mut [0; 2],
///         flags: &mut [0; 2],
///         listing,
///     };
///     search(&[7, 7, 3, 3, 7, 7], 2, 3, &[1, 1, 2, 1], 2, 2, buffers)
/// };
/// let refusal = first_draft(&mut []).unwrap_err();
/// assert_eq!(refusal, SearchRefusal::ListingBufferShort { needed: 21 });
///
/// let totals = first_draft(&mut [0; 21])?;
/// assert_eq!(totals, Totals { found: 1, refused: 1, length: 21 });
/// # Ok::<(), SearchRefusal>(())
/// ```
///
/// The crate's own example reads the listing.
pub fn search(
    text: &[u8],
    rows: usize,
    columns: usize,
    pattern: &[u8],
    height: usize,
    width: usize,
    buffers: Buffers,
) -> Result<Totals, SearchRefusal> {
    let mut totals = [0; 3];
    let outcome = search_into(
        text,
        rows,
        columns,
        pattern,
        height,
        width,
        buffers,
        &mut totals,
    );
    typed(outcome, totals)
}

/// [`search`] with its totals in what is lent to it: found, refused and the listing's length.
///
/// [`Refusal::ListingBufferShort`] has the length needed for the last and leaves the other two; any other refusal
/// leaves all three.
#[allow(clippy::too_many_arguments)]
pub fn search_into(
    text: &[u8],
    rows: usize,
    columns: usize,
    pattern: &[u8],
    height: usize,
    width: usize,
    buffers: Buffers,
    totals: &mut [usize; 3],
) -> Result<(), Refusal> {
    // SAFETY: each slice is passed as it is, a pointer with its own length; the buffers are lent for writing and lie
    // apart.
    outcome(unsafe {
        foreign::colourway_search(
            text.as_ptr(),
            text.len(),
            rows,
            columns,
            pattern.as_ptr(),
            pattern.len(),
            height,
            width,
            buffers.links.as_mut_ptr(),
            buffers.links.len(),
            buffers.counts.as_mut_ptr(),
            buffers.counts.len(),
            buffers.flags.as_mut_ptr(),
            buffers.flags.len(),
            buffers.listing.as_mut_ptr(),
            buffers.listing.len(),
            totals,
        )
    })
}

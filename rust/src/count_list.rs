//! The search in two halves, count first and list later (document 02, R-1).

use crate::search::{named, typed};
use crate::{foreign, outcome, Refusal, SearchRefusal, Totals};

/// What a count is lent: a search's [`Buffers`](crate::Buffers) but for the listing. Each may be longer than it needs
/// to be: what lies beyond stays as it was.
#[derive(Debug)]
pub struct CountBuffers<'a> {
    /// At least `rows * width` entries, in which the count works. It leaves zeros in them.
    pub links: &'a mut [u16],
    /// At least an entry a window: the number of different symbols in it, as
    /// [`distinct_counts`](crate::distinct_counts) has it.
    pub counts: &'a mut [u16],
    /// At least a byte a window: 1 where the pattern matches, 0 where it does not (document 01's marks). [`list`] reads
    /// them.
    pub flags: &'a mut [u8],
}

/// Compares the pattern of `height` by `width` cells with every window of a text, as [`search`](crate::search) does,
/// and lists nothing: how many windows it matches, how many it does not, and how many bytes their listing would have.
///
/// Links, counts and flags are afterwards as after the search. A refusal changes nothing.
///
/// Refused by [`Refusal::SideRange`], [`Refusal::CellCount`], [`Refusal::TooLarge`], [`Refusal::LinksBufferShort`] and
/// [`Refusal::WindowBufferShort`], in this order.
///
/// ```
/// use colourway::{count, CountBuffers, Totals};
///
/// // Document 01's first draft.
/// let mut flags = [0; 2];
/// let buffers = CountBuffers {
///     links: &mut [0; 4],  // rows × width
///     counts: &mut [0; 2], // one a window
///     flags: &mut flags,   // one a window
/// };
/// let totals = count(&[7, 7, 3, 3, 7, 7], 2, 3, &[1, 1, 2, 1], 2, 2, buffers)?;
/// assert_eq!(totals, Totals { found: 1, refused: 1, length: 21 });
/// assert_eq!(flags, [1, 0]);
/// # Ok::<(), colourway::Refusal>(())
/// ```
pub fn count(
    text: &[u8],
    rows: usize,
    columns: usize,
    pattern: &[u8],
    height: usize,
    width: usize,
    buffers: CountBuffers,
) -> Result<Totals, Refusal> {
    let mut totals = [0; 3];
    count_into(
        text,
        rows,
        columns,
        pattern,
        height,
        width,
        buffers,
        &mut totals,
    )?;
    Ok(named(totals))
}

/// [`count`] with its totals in what is lent to it: found, refused and the listing's length.
///
/// A refusal leaves all three.
#[allow(clippy::too_many_arguments)]
pub fn count_into(
    text: &[u8],
    rows: usize,
    columns: usize,
    pattern: &[u8],
    height: usize,
    width: usize,
    buffers: CountBuffers,
    totals: &mut [usize; 3],
) -> Result<(), Refusal> {
    // SAFETY: each slice is passed as it is, a pointer with its own length; the buffers are lent for writing and lie
    // apart; the totals are three.
    outcome(unsafe {
        foreign::colourway_count(
            text.as_ptr(),
            text.len(),
            rows,
            columns,
            pattern.as_ptr(),
            pattern.len(),
            height,
            width,
            buffers.links.as_mut_ptr(),
            buffers.links.len(),
            buffers.counts.as_mut_ptr(),
            buffers.counts.len(),
            buffers.flags.as_mut_ptr(),
            buffers.flags.len(),
            totals,
        )
    })
}

/// Writes the listing of a text and a pattern from the flags of its windows, which a [`count`] of the same two left,
/// or which come from elsewhere. Totals and listing are those of the [`search`](crate::search).
///
/// A flag is 1 where the pattern matches the window and 0 where it does not; 2 to 255 are never right. Every window is
/// judged, and flags that are wrong for some window are refused by [`Refusal::FlagsFalse`], whatever room the listing
/// has. What stands behind the last window's flag makes no difference.
///
/// Refused by [`Refusal::SideRange`], [`Refusal::CellCount`], [`Refusal::TooLarge`], [`Refusal::WindowBufferShort`] (of
/// the flags), [`Refusal::FlagsFalse`] and [`Refusal::ListingBufferShort`], in this order. The last one tells the
/// length needed. A refusal leaves the listing buffer untouched.
///
/// Count first, make exactly the room that the listing needs, and list later:
///
/// ```
/// use colourway::{count, list, CountBuffers, Refusal, SearchRefusal};
///
/// // Document 01's first draft.
/// let text = [7, 7, 3, 3, 7, 7];
/// let pattern = [1, 1, 2, 1];
/// let mut flags = [0; 2];
/// let buffers = CountBuffers {
///     links: &mut [0; 4],
///     counts: &mut [0; 2],
///     flags: &mut flags,
/// };
/// let counted = count(&text, 2, 3, &pattern, 2, 2, buffers)?;
/// assert_eq!(counted.found, 1);
///
/// let mut listing = vec![0; counted.length];
/// let totals = list(&text, 2, 3, &pattern, 2, 2, &flags, &mut listing)?;
/// assert_eq!(totals, counted);
/// assert_eq!(listing[..3], [1, 0, 0]); // found at row 0, column 0
///
/// // The second window is refused, and not found.
/// let refusal = list(&text, 2, 3, &pattern, 2, 2, &[1, 1], &mut listing).unwrap_err();
/// assert_eq!(refusal, SearchRefusal::Refused(Refusal::FlagsFalse));
/// assert_eq!(refusal.to_string(), "refused 16");
/// # Ok::<(), Box<dyn std::error::Error>>(())
/// ```
#[allow(clippy::too_many_arguments)]
pub fn list(
    text: &[u8],
    rows: usize,
    columns: usize,
    pattern: &[u8],
    height: usize,
    width: usize,
    flags: &[u8],
    listing: &mut [u8],
) -> Result<Totals, SearchRefusal> {
    let mut totals = [0; 3];
    let outcome = list_into(
        text,
        rows,
        columns,
        pattern,
        height,
        width,
        flags,
        listing,
        &mut totals,
    );
    typed(outcome, totals)
}

/// [`list`] with its totals in what is lent to it: found, refused and the listing's length.
///
/// [`Refusal::ListingBufferShort`] has the length needed for the last and leaves the other two; any other refusal
/// leaves all three.
#[allow(clippy::too_many_arguments)]
pub fn list_into(
    text: &[u8],
    rows: usize,
    columns: usize,
    pattern: &[u8],
    height: usize,
    width: usize,
    flags: &[u8],
    listing: &mut [u8],
    totals: &mut [usize; 3],
) -> Result<(), Refusal> {
    // SAFETY: each slice is passed as it is, a pointer with its own length; the listing is lent for writing and lies
    // apart; the totals are three.
    outcome(unsafe {
        foreign::colourway_list(
            text.as_ptr(),
            text.len(),
            rows,
            columns,
            pattern.as_ptr(),
            pattern.len(),
            height,
            width,
            flags.as_ptr(),
            flags.len(),
            listing.as_mut_ptr(),
            listing.len(),
            totals,
        )
    })
}

//! The search at a scale, and at every scale that fits (document 02, R-2, coarse cloth).

use crate::search::typed;
use crate::{foreign, outcome, Buffers, Refusal, SearchRefusal, Totals};

/// Compares the enlarged pattern with every window of its size, and lists the answers: the [`search`](crate::search) at
/// a scale.
///
/// At the scale `k` each cell of the pattern is drawn as `k` by `k` cells. The enlarged pattern has `k * height` rows
/// and `k * width` columns, and its cell `(i, j)` is the pattern's cell `(i / k, j / k)`. It is stored nowhere, but
/// totals and buffers are those of a search for it: a mismatch names its cells by their place in the enlarged pattern,
/// and a match has a pair for each symbol of the pattern.
///
/// `links` need `rows * (k * width)` entries; `counts` and `flags` need one a window, and there are
/// `(rows - k * height + 1) * (columns - k * width + 1)` windows. The listing is as long as that of a search with so
/// many windows found and refused.
///
/// Refused by [`Refusal::SideRange`], [`Refusal::CellCount`], [`Refusal::ScaleUnfit`], [`Refusal::LinksBufferShort`],
/// [`Refusal::WindowBufferShort`] and [`Refusal::ListingBufferShort`], in this order. The first two are of the pattern
/// as it is given. The third is of the scale, which may be any number, and takes the place of
/// [`Refusal::TooLarge`]. The last one tells the length needed.
///
/// ```
/// use colourway::{records, search_scaled, Buffers, Totals};
///
/// // 1 2 at scale 2 is 1 1 2 2 / 1 1 2 2. There are two windows, of which it matches the first.
/// let text = [7, 7, 3, 3, 3, 7, 7, 3, 3, 3];
/// let mut listing = [0; 21];
/// let buffers = Buffers {
///     links: &mut [0; 8],  // rows × (scale × width)
///     counts: &mut [0; 2], // one a window
///     flags: &mut [0; 2],  // one a window
///     listing: &mut listing,
/// };
/// let totals = search_scaled(&text, 2, 5, &[1, 2], 1, 2, 2, buffers)?;
/// assert_eq!(totals, Totals { found: 1, refused: 1, length: 21 });
///
/// let mut lines = Vec::new();
/// for record in records(&listing) {
///     lines.push(record?.to_string());
/// }
/// assert_eq!(lines, ["1 0 0", "2 1 7", "2 2 3", "3 0 1 0 0 0 1", "5 0 1 0 1"]);
/// # Ok::<(), Box<dyn std::error::Error>>(())
/// ```
#[allow(clippy::too_many_arguments)]
pub fn search_scaled(
    text: &[u8],
    rows: usize,
    columns: usize,
    pattern: &[u8],
    height: usize,
    width: usize,
    scale: usize,
    buffers: Buffers,
) -> Result<Totals, SearchRefusal> {
    let mut totals = [0; 3];
    let outcome = search_scaled_into(
        text,
        rows,
        columns,
        pattern,
        height,
        width,
        scale,
        buffers,
        &mut totals,
    );
    typed(outcome, totals)
}

/// [`search_scaled`] with its totals in what is lent to it: found, refused and the listing's length.
///
/// [`Refusal::ListingBufferShort`] has the length needed for the last and leaves the other two; any other refusal
/// leaves all three.
#[allow(clippy::too_many_arguments)]
pub fn search_scaled_into(
    text: &[u8],
    rows: usize,
    columns: usize,
    pattern: &[u8],
    height: usize,
    width: usize,
    scale: usize,
    buffers: Buffers,
    totals: &mut [usize; 3],
) -> Result<(), Refusal> {
    // SAFETY: each slice is passed as it is, a pointer with its own length; the buffers are lent for writing and lie
    // apart; the totals are three.
    outcome(unsafe {
        foreign::colourway_search_scaled(
            text.as_ptr(),
            text.len(),
            rows,
            columns,
            pattern.as_ptr(),
            pattern.len(),
            height,
            width,
            scale,
            buffers.links.as_mut_ptr(),
            buffers.links.len(),
            buffers.counts.as_mut_ptr(),
            buffers.counts.len(),
            buffers.flags.as_mut_ptr(),
            buffers.flags.len(),
            buffers.listing.as_mut_ptr(),
            buffers.listing.len(),
            totals,
        )
    })
}

/// [`search_scaled`] at every scale that fits, from 1 to the largest, `K`, which is the lesser of `rows / height` and
/// `columns / width`. The listings stand one after the other, that of scale 1 first, each with its own closing; the
/// totals are the sums of found, refused and length.
///
/// `links` need `rows * (K * width)` entries, `counts` and `flags` one for each window at scale 1, the listing the sum
/// of all lengths. Each scale writes counts and flags afresh from their start, and a larger one has fewer windows: so
/// afterwards the entries of scale `K` come first, behind them what scale `K - 1` left, and so on. Links are 0 as far
/// as scale `K` needs them.
///
/// Refused by [`Refusal::SideRange`], [`Refusal::CellCount`], [`Refusal::ScaleUnfit`] (no scale fits),
/// [`Refusal::LinksBufferShort`] (at scale `K`), [`Refusal::WindowBufferShort`] (at scale 1) and
/// [`Refusal::ListingBufferShort`] (for all listings together), in this order. The last one tells the sum of the
/// lengths; links, counts and flags are then as after an accepted call, and the listing buffer is untouched.
///
/// ```
/// use colourway::{records, search_scales, Buffers, Record, Totals};
///
/// // One symbol, at scales 1 and 2.
/// let text = [7, 7, 7, 8];
/// let (mut flags, mut listing) = ([0; 4], [0; 41]);
/// let buffers = Buffers {
///     links: &mut [0; 4],  // rows × (2 × width)
///     counts: &mut [0; 4], // one a window at scale 1
///     flags: &mut flags,   // one a window at scale 1
///     listing: &mut listing,
/// };
/// let totals = search_scales(&text, 2, 2, &[1], 1, 1, buffers)?;
/// assert_eq!(totals, Totals { found: 4, refused: 1, length: 41 });
/// // The one window of scale 2, and behind it what scale 1 left for its last three windows.
/// assert_eq!(flags, [0, 1, 1, 1]);
///
/// // A closing ends the listing of each scale.
/// let mut closings = Vec::new();
/// for record in records(&listing) {
///     if let Record::Closing { found, refused } = record? {
///         closings.push((found, refused));
///     }
/// }
/// assert_eq!(closings, [(4, 0), (0, 1)]);
/// # Ok::<(), Box<dyn std::error::Error>>(())
/// ```
pub fn search_scales(
    text: &[u8],
    rows: usize,
    columns: usize,
    pattern: &[u8],
    height: usize,
    width: usize,
    buffers: Buffers,
) -> Result<Totals, SearchRefusal> {
    let mut totals = [0; 3];
    let outcome = search_scales_into(
        text,
        rows,
        columns,
        pattern,
        height,
        width,
        buffers,
        &mut totals,
    );
    typed(outcome, totals)
}

/// [`search_scales`] with its totals in what is lent to it: the sums of found, refused and the listings' lengths.
///
/// [`Refusal::ListingBufferShort`] has the sum of the lengths for the last and leaves the other two; any other refusal
/// leaves all three.
#[allow(clippy::too_many_arguments)]
pub fn search_scales_into(
    text: &[u8],
    rows: usize,
    columns: usize,
    pattern: &[u8],
    height: usize,
    width: usize,
    buffers: Buffers,
    totals: &mut [usize; 3],
) -> Result<(), Refusal> {
    // SAFETY: each slice is passed as it is, a pointer with its own length; the buffers are lent for writing and lie
    // apart; the totals are three.
    outcome(unsafe {
        foreign::colourway_search_scales(
            text.as_ptr(),
            text.len(),
            rows,
            columns,
            pattern.as_ptr(),
            pattern.len(),
            height,
            width,
            buffers.links.as_mut_ptr(),
            buffers.links.len(),
            buffers.counts.as_mut_ptr(),
            buffers.counts.len(),
            buffers.flags.as_mut_ptr(),
            buffers.flags.len(),
            buffers.listing.as_mut_ptr(),
            buffers.listing.len(),
            totals,
        )
    })
}

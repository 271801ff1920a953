//! The one-window question (document 01, 'One window').

use crate::{foreign, outcome, Bijection, Refusal};

/// What is found at a window.
#[derive(Clone, Debug, PartialEq, Eq)]
pub enum WindowAnswer {
    /// The bijection that pairs just the pattern's symbols with the window's.
    Match(Bijection),
    /// Two cells, by position row by row in the pattern, that are alike on one side only (document 01's clash). The
    /// later one is the first at which any mismatch ends, the earlier one the first that mismatches with it.
    Mismatch {
        /// Whether they are alike in the pattern, and not in the window: document 01's kind 3. Otherwise its kind 4.
        alike_in_pattern: bool,
        /// The earlier cell's position in the pattern.
        earlier: usize,
        /// The later cell's position in the pattern.
        later: usize,
    },
}

/// Whether the pattern of `height` by `width` cells matches the window of its size at corner (`row`, `column`) of a
/// text.
///
/// Refused by [`Refusal::SideRange`], [`Refusal::CellCount`], [`Refusal::TooLarge`] and [`Refusal::CornerOutside`], in
/// this order.
#[allow(clippy::too_many_arguments)]
pub fn one_window(
    text: &[u8],
    rows: usize,
    columns: usize,
    pattern: &[u8],
    height: usize,
    width: usize,
    row: usize,
    column: usize,
) -> Result<WindowAnswer, Refusal> {
    let mut bijection = Bijection::empty();
    let mut mismatch = [0; 3];
    one_window_into(
        text,
        rows,
        columns,
        pattern,
        height,
        width,
        row,
        column,
        &mut bijection,
        &mut mismatch,
    )?;
    Ok(match mismatch {
        [0, _, _] => WindowAnswer::Match(bijection),
        [kind, earlier, later] => WindowAnswer::Mismatch {
            alike_in_pattern: kind == 3,
            earlier,
            later,
        },
    })
}

/// [`one_window`] with its answer in what is lent to it: the bijection, and a mismatch as its kind, its earlier and its
/// later cell.
///
/// A match has three zeros for a mismatch, a mismatch has the empty bijection beside it, and a refusal changes neither.
#[allow(clippy::too_many_arguments)]
pub fn one_window_into(
    text: &[u8],
    rows: usize,
    columns: usize,
    pattern: &[u8],
    height: usize,
    width: usize,
    row: usize,
    column: usize,
    bijection: &mut Bijection,
    mismatch: &mut [usize; 3],
) -> Result<(), Refusal> {
    // SAFETY: both slices are passed as they are, a pointer with its own length; the columns have 256 entries each.
    outcome(unsafe {
        foreign::colourway_one_window(
            text.as_ptr(),
            text.len(),
            rows,
            columns,
            pattern.as_ptr(),
            pattern.len(),
            height,
            width,
            row,
            column,
            &mut bijection.forward,
            &mut bijection.backward,
            mismatch,
        )
    })
}

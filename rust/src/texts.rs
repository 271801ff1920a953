//! Texts and their windows: links, distinct counts and cells (document 01, 'Strips and links', 'Tallies').

use crate::{foreign, outcome, Refusal};

/// Writes the links of the strip of that `width` whose first column is `left`, row by row.
///
/// The link of a position is the distance back to the nearest earlier position of the strip with the same symbol, or 0.
/// The first `rows * width` entries of `links` are written and the rest stay. A refusal changes none.
///
/// Refused by [`Refusal::SideRange`], [`Refusal::CellCount`], [`Refusal::TooLarge`], [`Refusal::CornerOutside`] and
/// [`Refusal::LinksBufferShort`], in this order.
pub fn strip_links(
    text: &[u8],
    rows: usize,
    columns: usize,
    width: usize,
    left: usize,
    links: &mut [u16],
) -> Result<(), Refusal> {
    // SAFETY: both slices are passed as they are, a pointer with its own length.
    outcome(unsafe {
        foreign::colourway_strip_links(
            text.as_ptr(),
            text.len(),
            rows,
            columns,
            width,
            left,
            links.as_mut_ptr(),
            links.len(),
        )
    })
}

/// Writes the number of different symbols in each window of `height` by `width` cells, row by row of corners (document
/// 01's tallies).
///
/// One entry of `counts` a window is written and the rest stay. A refusal changes none.
///
/// Refused by [`Refusal::SideRange`], [`Refusal::CellCount`], [`Refusal::TooLarge`] and [`Refusal::WindowBufferShort`],
/// in this order.
pub fn distinct_counts(
    text: &[u8],
    rows: usize,
    columns: usize,
    height: usize,
    width: usize,
    counts: &mut [u16],
) -> Result<(), Refusal> {
    // SAFETY: both slices are passed as they are, a pointer with its own length.
    outcome(unsafe {
        foreign::colourway_distinct_counts(
            text.as_ptr(),
            text.len(),
            rows,
            columns,
            height,
            width,
            counts.as_mut_ptr(),
            counts.len(),
        )
    })
}

/// The symbol in cell (`i`, `j`) of the window at corner (`row`, `column`), or `None` where the cell lies past the
/// text's end.
///
/// The text is read through its row width, without copying: a column beyond it leads into the next row.
pub fn window_cell(text: &[u8], row_width: u8, row: u8, column: u8, i: u8, j: u8) -> Option<u8> {
    // SAFETY: the slice is passed as it is, a pointer with its own length.
    let number = unsafe {
        foreign::colourway_window_cell(text.as_ptr(), text.len(), row_width, row, column, i, j)
    };
    u8::try_from(number).ok()
}

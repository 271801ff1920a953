//! Safe wrappers of the proved operations on texts, windows, symbol sets and bijections, of the one-window question,
//! and of the search with its listing, in one call or in two and at scales, the listing's reader and its check.
//!
//! A text (document 01's sheet) is `rows` by `columns` symbols (yarn numbers), one byte each, row by row; a pattern
//! (motif) is `height` by `width`, laid out likewise. A window is the `height` by `width` part of the text at a corner
//! (`row`, `column`), counted from 0. The pattern matches a window where a one-to-one renaming of its symbols, a
//! [`Bijection`], gives the window's symbol in every cell. Where none does, two cells spoil the window: they are alike
//! on one side only, a mismatch (clash).
//!
//! Each wrapper hands its arguments on to one function of the static library, `crates/exports`. No function there asks
//! anything of its caller, so a wrapper tests nothing and can't be misused: an input that makes no sense is refused, by
//! document 01's number.
//!
//! # Example
//!
//! Document 01's first draft: the search lists every window of the text 7 7 3 / 3 7 7 for the pattern 1 1 / 2 1, the
//! reader takes the listing apart, and the check passes it.
//!
//! ```
//! use colourway::{check, records, search, Buffers, Checked};
//!
//! let text = [7, 7, 3, 3, 7, 7];
//! let pattern = [1, 1, 2, 1];
//! let mut listing = [0; 64];
//! let buffers = Buffers {
//!     links: &mut [0; 4],  // rows × width
//!     counts: &mut [0; 2], // one a window
//!     flags: &mut [0; 2],  // one a window
//!     listing: &mut listing,
//! };
//! let totals = search(&text, 2, 3, &pattern, 2, 2, buffers)?;
//! let listing = &listing[..totals.length];
//!
//! let mut lines = Vec::new();
//! for record in records(listing) {
//!     lines.push(record?.to_string());
//! }
//! assert_eq!(
//!     lines,
//!     [
//!         "1 0 0",         // found at row 0, column 0
//!         "2 1 7",         // symbol 1 is 7 there
//!         "2 2 3",         // symbol 2 is 3 there
//!         "3 0 1 0 0 0 1", // refused at row 0, column 1: cells (0, 0) and (0, 1) are alike in the pattern only
//!         "5 0 1 0 1",     // one found, one refused
//!     ]
//! );
//! let checked = check(&text, 2, 3, &pattern, 2, 2, listing)?;
//! assert_eq!(checked, Checked { found: 1, refused: 1 });
//! # Ok::<(), Box<dyn std::error::Error>>(())
//! ```
//!
//! # Count first, list later
//!
//! [`search`] is [`count`] followed by [`list`]. Where the number of matches decides what comes next, call [`count`]
//! alone: it needs no room for a listing, and tells how long it would be. [`list`] then needs nothing but the flags
//! that the count left; it has an example.
//!
//! # At scales
//!
//! On coarse cloth each cell of a pattern is drawn as `k` by `k` cells. [`search_scaled`] is the search at such a
//! scale: its listing is that of the enlarged pattern, which is stored nowhere. [`search_scales`] goes through every
//! scale that fits, smallest first, and writes one listing after the other; its totals are sums. Both have an example.
//!
//! # Refused by number
//!
//! | No. | [`Refusal`] | Condition | Given by |
//! |---|---|---|---|
//! | 1 | [`SizesMissing`] | fewer than 4 size bytes | the program |
//! | 2 | [`SideRange`] | a side is 0 or above 255 | see below |
//! | 3 | [`CellCount`] | the cells given are not rows × columns in number | the same |
//! | 4 | [`TooLarge`] | the pattern, window or strip is taller or wider than the text | the same |
//! | 5 | [`CornerOutside`] | the corner or the strip's column is beyond the last | [`strip_links`], [`one_window`] |
//! | 6 | [`ListingForm`] | the listing has the wrong form | [`read`], [`check`] |
//! | 7 | [`ListingFalse`] | the listing states what is not so | [`check`] |
//! | 8 | [`TooManyCells`] | text or pattern has more than 16,384 cells | the program |
//! | 9 | [`LinksBufferShort`] | links are fewer than rows × width | [`strip_links`] and see below |
//! | 10 | [`WindowBufferShort`] | flags or counts are fewer than the windows | [`distinct_counts`] and see below |
//! | 11 | [`ListingBufferShort`] | the buffer is shorter than the listing | see below |
//! | 12 | [`HasOtherImage`] | the pattern symbol already has another image | [`Bijection::pair`] |
//! | 13 | [`HasOtherPreimage`] | the text symbol is already another's image | [`Bijection::pair`] |
//! | 14 | [`ColumnsDisagree`] | columns that disagree or hold a number above 256 | [`Bijection`]'s operations |
//! | 15 | [`CursorSpent`] | the cursor is at or past the end of the listing | [`read`] |
//! | 16 | [`FlagsFalse`] | the flag of some window is not the truth | [`list`] |
//! | 17 | [`ScaleUnfit`] | scale 0, or the enlarged pattern does not fit | [`search_scaled`], [`search_scales`] |
//!
//! 2, 3 and 4 are given by [`strip_links`], [`distinct_counts`], [`one_window`], [`search`], [`count`], [`list`],
//! [`check`] and the program; 2 and 3 also by [`search_scaled`] and [`search_scales`], which have 17 in place of 4.
//! [`search`], [`count`], [`search_scaled`] and [`search_scales`] give 9 and 10, and [`list`] 10 for its flags; 11 is
//! given by all of these but [`count`], and by the program. At a scale, width and windows are those of the enlarged
//! pattern: [`search_scales`] asks 9 at the largest scale, 10 at scale 1, and 11 for all listings together.
//!
//! Where an input earns several, the first in an operation's order is given. The order is 2, 3, 4 or 17, 5, 9, 10, 16,
//! 11 for those an operation has; 14, 12, 13 for a bijection; 15, 6 for the reader; 2, 3, 4 for the check, and then 6
//! or 7 by its first bad record.
//!
//! A refusal changes no buffer but where an operation says so: 11 of [`search`], [`search_scaled`] and
//! [`search_scales`] alone does. What it returns besides its number is in the typed refusal: the length needed of 11 in
//! [`SearchRefusal`], the place of the bad record of 6 and 7 in [`CheckRefusal`], the cursor's place of 15 and 6 in
//! [`ReadRefusal`]. The operations whose names end in `_into` write that value where the answer's own would go, and
//! leave all else.
//!
//! # Stack
//!
//! From its caller's frame down, a function of the static library touches at most this much of the stack:
//!
//! | Operation | Stack |
//! |---|---|
//! | [`search`] | 18 KiB |
//! | [`count`] | 15 KiB |
//! | [`list`] | 22 KiB |
//! | [`search_scaled`] | 19 KiB |
//! | [`search_scales`] | 25 KiB |
//! | [`check`] | 15 KiB |
//! | [`one_window`] | 7 KiB |
//! | [`Bijection::compose`] | 8 KiB |
//! | [`Bijection::pair`] | 4 KiB |
//! | [`Bijection::invert`] | 3 KiB |
//! | [`distinct_counts`] | 2 KiB |
//! | [`strip_links`] | 1 KiB |
//! | all others | 512 bytes |
//!
//! The first three take about that much whatever the size of their text, [`list`] also where it refuses by 16 or 11.
//! A wrapper adds its own locals, of which a [`Bijection`], 1 KiB, is the largest. The figures are measured and not
//! proved; `include/colourway.h` says how. The test `stack` runs every operation in a thread of 64 KiB.
//!
//! # To build and test
//!
//! `rt lib` in crates/exports and `./colourway < drafts/first.in` at the repository's top, then
//! `cargo test --release --offline` here.
//! To measure the search beside a plain one, and count, list, check and the searches at scales beside the search:
//! `cargo run --release --offline -p bench`.
//! `include/colourway.h` has the same operations for C, and how to link them.
//!
//! [`SizesMissing`]: Refusal::SizesMissing
//! [`SideRange`]: Refusal::SideRange
//! [`CellCount`]: Refusal::CellCount
//! [`TooLarge`]: Refusal::TooLarge
//! [`CornerOutside`]: Refusal::CornerOutside
//! [`ListingForm`]: Refusal::ListingForm
//! [`ListingFalse`]: Refusal::ListingFalse
//! [`TooManyCells`]: Refusal::TooManyCells
//! [`LinksBufferShort`]: Refusal::LinksBufferShort
//! [`WindowBufferShort`]: Refusal::WindowBufferShort
//! [`ListingBufferShort`]: Refusal::ListingBufferShort
//! [`HasOtherImage`]: Refusal::HasOtherImage
//! [`HasOtherPreimage`]: Refusal::HasOtherPreimage
//! [`ColumnsDisagree`]: Refusal::ColumnsDisagree
//! [`CursorSpent`]: Refusal::CursorSpent
//! [`FlagsFalse`]: Refusal::FlagsFalse
//! [`ScaleUnfit`]: Refusal::ScaleUnfit

#![warn(missing_docs)]

mod bijections;
mod check;
mod compare;
mod count_list;
mod foreign;
mod reader;
mod scales;
mod search;
mod texts;

pub use bijections::{Bijection, NONE};
pub use check::{check, check_into, CheckRefusal, Checked};
pub use compare::{one_window, one_window_into, WindowAnswer};
pub use count_list::{count, count_into, list, list_into, CountBuffers};
pub use reader::{read, read_into, records, Place, ReadRefusal, Record, Records};
pub use scales::{search_scaled, search_scaled_into, search_scales, search_scales_into};
pub use search::{search, search_into, Buffers, SearchRefusal, Totals};
pub use texts::{distinct_counts, strip_links, window_cell};

use std::fmt;

/// By what an operation refuses its input, a buffer lent to it, flags, a listing, a bijection or a cursor.
#[derive(Clone, Copy, Debug, PartialEq, Eq)]
#[repr(u8)]
pub enum Refusal {
    /// Fewer than 4 size bytes. The program alone gives it, and no operation here.
    SizesMissing = 1,
    /// A side is 0 or above 255.
    SideRange = 2,
    /// The cells given are not rows × columns in number.
    CellCount = 3,
    /// The window or strip is taller or wider than the text.
    TooLarge = 4,
    /// The window's corner, or the strip's column, is beyond the last at which the window or strip fits.
    CornerOutside = 5,
    /// The listing has the wrong form: for the reader an unknown kind or a cut record, for the check also a kind that
    /// is not due, a missing record, or bytes left over.
    ListingForm = 6,
    /// The listing has a record of right form that states what is not so.
    ListingFalse = 7,
    /// The text or the pattern has more than 16,384 cells. The program alone gives it, and no operation here.
    TooManyCells = 8,
    /// The links buffer is shorter than a strip.
    LinksBufferShort = 9,
    /// The flags or the counts buffer is shorter than the number of windows.
    WindowBufferShort = 10,
    /// The listing buffer is shorter than the listing.
    ListingBufferShort = 11,
    /// The pattern symbol already has another image.
    HasOtherImage = 12,
    /// The text symbol is already another's image.
    HasOtherPreimage = 13,
    /// The columns of a bijection disagree or hold a number above 256.
    ColumnsDisagree = 14,
    /// The cursor is at or past the end of the listing.
    CursorSpent = 15,
    /// The flag of some window is not the truth: it is not 1 where the pattern matches, or not 0 where it does not.
    FlagsFalse = 16,
    /// The scale is 0, or the enlarged pattern is taller or wider than the text; at every scale: no scale fits.
    ScaleUnfit = 17,
}

impl Refusal {
    /// Every refusal, in the order of the numbers.
    pub const ALL: [Refusal; 17] = [
        Refusal::SizesMissing,
        Refusal::SideRange,
        Refusal::CellCount,
        Refusal::TooLarge,
        Refusal::CornerOutside,
        Refusal::ListingForm,
        Refusal::ListingFalse,
        Refusal::TooManyCells,
        Refusal::LinksBufferShort,
        Refusal::WindowBufferShort,
        Refusal::ListingBufferShort,
        Refusal::HasOtherImage,
        Refusal::HasOtherPreimage,
        Refusal::ColumnsDisagree,
        Refusal::CursorSpent,
        Refusal::FlagsFalse,
        Refusal::ScaleUnfit,
    ];

    /// Document 01's number of the refusal; those of document 02's requests join its table.
    pub fn number(self) -> u8 {
        self as u8
    }

    /// The refusal that has this number: there is one for each from 1 to 17, and no other.
    pub fn from_number(number: u8) -> Option<Refusal> {
        Refusal::ALL.into_iter().find(|why| why.number() == number)
    }
}

impl fmt::Display for Refusal {
    /// As document 01's program prints it.
    fn fmt(&self, f: &mut fmt::Formatter) -> fmt::Result {
        write!(f, "refused {}", self.number())
    }
}

impl std::error::Error for Refusal {}

/// An outcome from its number: 0 is accepted.
fn outcome(number: u8) -> Result<(), Refusal> {
    if number == 0 {
        return Ok(());
    }
    // An operation gives no other number: that is proved of it.
    Err(Refusal::from_number(number).expect("a number of document 01"))
}

/// A set of symbols, held as 256 bits in four words: bit `k` of word `i` is 1 where symbol `64 * i + k` is in the set.
#[derive(Clone, Copy, Debug, PartialEq, Eq)]
pub struct Symbols {
    words: [u64; 4],
}

impl Symbols {
    /// The set of the symbols in a pattern (document 01's motif).
    pub fn of(pattern: &[u8]) -> Symbols {
        let mut words = [0; 4];
        // SAFETY: the slice is passed as a pointer with its own length, and words are four.
        unsafe { foreign::colourway_symbols(pattern.as_ptr(), pattern.len(), &mut words) };
        Symbols { words }
    }

    /// The set that these words hold. Any four words hold one.
    pub fn from_words(words: [u64; 4]) -> Symbols {
        Symbols { words }
    }

    /// The set's four words.
    pub fn words(self) -> [u64; 4] {
        self.words
    }

    /// How many symbols are in the set.
    pub fn size(self) -> u32 {
        // SAFETY: words are four.
        unsafe { foreign::colourway_symbols_size(&self.words) }
    }

    /// The lowest symbol of the set, if it has one.
    pub fn lowest(self) -> Option<u8> {
        // SAFETY: words are four.
        let number = unsafe { foreign::colourway_symbols_lowest(&self.words) };
        u8::try_from(number).ok()
    }

    /// The set without a symbol.
    pub fn without(mut self, symbol: u8) -> Symbols {
        // SAFETY: words are four.
        unsafe { foreign::colourway_symbols_without(&mut self.words, symbol) };
        self
    }
}

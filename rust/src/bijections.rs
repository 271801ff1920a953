//! Bijections between symbols (document 01's renamings).

use crate::{foreign, outcome, Refusal};

/// What stands in a column where a symbol has no image or no preimage.
pub const NONE: u16 = 256;

/// A bijection between some pattern symbols and as many text symbols, held as two columns: entry `a` of the forward one
/// is the image of pattern symbol `a`, entry `c` of the backward one the preimage of text symbol `c`, and [`NONE`]
/// stands for none.
///
/// The columns agree when the forward one gives `c` at `a` exactly if the backward one gives `a` at `c`, for all
/// symbols. What the operations make of columns that agree agrees again. Columns from elsewhere may not: then each
/// operation refuses them.
///
/// An operation changes the bijection that it is called on, and leaves it as it is where it refuses.
#[derive(Clone, Debug, PartialEq, Eq)]
pub struct Bijection {
    pub(crate) forward: [u16; 256],
    pub(crate) backward: [u16; 256],
}

impl Bijection {
    /// The bijection with no pair.
    pub fn empty() -> Bijection {
        let mut new = Bijection::from_columns([0; 256], [0; 256]);
        // SAFETY: the columns have 256 entries each.
        unsafe { foreign::colourway_bijection_empty(&mut new.forward, &mut new.backward) };
        new
    }

    /// The bijection in these columns, whether they agree or not.
    pub fn from_columns(forward: [u16; 256], backward: [u16; 256]) -> Bijection {
        Bijection { forward, backward }
    }

    /// The images of the pattern symbols.
    pub fn forward(&self) -> &[u16; 256] {
        &self.forward
    }

    /// The preimages of the text symbols.
    pub fn backward(&self) -> &[u16; 256] {
        &self.backward
    }

    /// The image of a pattern symbol, if it has one.
    pub fn image(&self, symbol: u8) -> Option<u8> {
        u8::try_from(self.forward[usize::from(symbol)]).ok()
    }

    /// The preimage of a text symbol, if it has one.
    pub fn preimage(&self, symbol: u8) -> Option<u8> {
        u8::try_from(self.backward[usize::from(symbol)]).ok()
    }

    /// Pairs the pattern symbol `a` with the text symbol `c`. The same pair again changes nothing.
    ///
    /// Refused by [`Refusal::ColumnsDisagree`], [`Refusal::HasOtherImage`] and [`Refusal::HasOtherPreimage`], in this
    /// order.
    pub fn pair(&mut self, a: u8, c: u8) -> Result<(), Refusal> {
        // SAFETY: the columns have 256 entries each.
        outcome(unsafe {
            foreign::colourway_bijection_pair(&mut self.forward, &mut self.backward, a, c)
        })
    }

    /// Exchanges the columns. Refused by [`Refusal::ColumnsDisagree`].
    pub fn invert(&mut self) -> Result<(), Refusal> {
        // SAFETY: the columns have 256 entries each.
        outcome(unsafe {
            foreign::colourway_bijection_invert(&mut self.forward, &mut self.backward)
        })
    }

    /// First this bijection, then the other: `a` is paired with `c` wherever this one gives `b` at `a` and the other
    /// `c` at `b`.
    ///
    /// Refused by [`Refusal::ColumnsDisagree`] if either earns it.
    ///
    /// To compose a bijection with itself, pass a clone: the other columns may not be those that are written.
    pub fn compose(&mut self, other: &Bijection) -> Result<(), Refusal> {
        // SAFETY: the columns have 256 entries each, and those of the other bijection lie apart.
        outcome(unsafe {
            foreign::colourway_bijection_compose(
                &mut self.forward,
                &mut self.backward,
                &other.forward,
                &other.backward,
            )
        })
    }
}

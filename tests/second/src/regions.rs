//! The regions of a desk.

use crate::sheet::REGIONS;

/// The set of regions that a call carries: those of the desk that makes it, bits as in a tariff.
#[derive(Clone, Copy, Debug, PartialEq, Eq)]
pub struct DeskRegions(u32);

impl DeskRegions {
    /// All fourteen.
    pub const ALL: DeskRegions = DeskRegions((1 << REGIONS) - 1);

    /// Any set. Whatever is asked of an empty one, or of one with a higher bit, is outside it.
    pub const fn new(set: u32) -> DeskRegions {
        DeskRegions(set)
    }

    /// Whether the desk has all fourteen, and nothing else.
    pub fn has_all(self) -> bool {
        self == DeskRegions::ALL
    }

    /// Whether all the regions of a set are the desk's own.
    pub fn hold(self, regions: u32) -> bool {
        let DeskRegions(own) = self;
        let a_desk = own != 0 && own & !DeskRegions::ALL.0 == 0;
        a_desk && regions & !own == 0
    }
}

//! The law of orders (job 10): where it demands something of two edits in either order, and of a list of edits in another order. Beside it stand
//! wrong laws that demand more, to see that the cases refute each.

use reference::Asked;

/// The law, or a wrong one.
#[derive(Clone, Copy, Debug, PartialEq, Eq)]
pub enum Law {
    /// As it stands.
    Right,
    /// The same counts for places h − 1 apart too, and for one place of both rows.
    CountsNearer,
    CountsOfOnePlace,
    /// The same counts for places h apart, whatever the sum was.
    CountsFromAnySum,
    /// The same reach for places h apart too, and of the higher edit for places h − 1 apart.
    ReachAtDepth,
    HigherReachNearer,
    /// The same three rows for two edits of one target too.
    RowsOfOneTarget,
    /// The same three rows for every order of a list.
    RowsOfAnyOrder,
    /// Counts that add up to the same for every order that keeps targets.
    TotalOfCounts,
}

/// The wrong ones.
pub const WRONG_LAWS: [Law; 8] = [
    Law::CountsNearer,
    Law::CountsOfOnePlace,
    Law::CountsFromAnySum,
    Law::ReachAtDepth,
    Law::HigherReachNearer,
    Law::RowsOfOneTarget,
    Law::RowsOfAnyOrder,
    Law::TotalOfCounts,
];

/// How two edits stand to each other and to the sum.
#[derive(Clone, Copy, Debug)]
pub struct Standing {
    /// How far apart their places are, and h.
    pub distance: u64,
    pub depth: u64,
    /// They name the same row and place.
    pub one_target: bool,
    /// Neither is refused.
    pub taken: bool,
    /// The sum before them is what addition wrote for the rows.
    pub right: bool,
}

/// What is the same in both orders of two edits.
#[derive(Clone, Copy, Debug)]
pub struct Same {
    /// Which edits are refused.
    pub refused: bool,
    /// The three rows, in every byte that was lent.
    pub rows: bool,
    /// Each edit's count, and its reach; the reach of the edit of the higher place.
    pub counts: bool,
    pub reach: bool,
    pub higher_reach: bool,
}

impl Law {
    /// The three rows are demanded to be the same after two edits.
    pub fn same_rows(self, standing: &Standing) -> bool {
        !standing.one_target || self == Law::RowsOfOneTarget
    }

    /// Each edit's count is demanded to be the same.
    pub fn same_counts(self, standing: &Standing) -> bool {
        let &Standing {
            distance, depth, ..
        } = standing;
        let least = match self {
            Law::CountsNearer => depth - 1,
            _ => depth,
        };
        let from_any_sum = match self {
            Law::CountsFromAnySum => distance >= depth,
            _ => distance > depth,
        };
        let one_place = self == Law::CountsOfOnePlace && distance == 0;
        let from_right_sum = standing.right && (distance >= least || one_place);
        standing.taken && !standing.one_target && (from_any_sum || from_right_sum)
    }

    /// Each edit's reach is demanded to be the same.
    pub fn same_reach(self, standing: &Standing) -> bool {
        let beyond = match self {
            Law::ReachAtDepth => standing.distance >= standing.depth,
            _ => standing.distance > standing.depth,
        };
        standing.taken && beyond
    }

    /// The reach of the edit of the higher place is demanded to be the same.
    pub fn same_higher_reach(self, standing: &Standing) -> bool {
        let least = match self {
            Law::HigherReachNearer => standing.depth - 1,
            _ => standing.depth,
        };
        standing.taken && standing.distance > 0 && standing.distance >= least
    }

    /// The three rows are demanded to be the same after a list in another order, which keeps targets or doesn't.
    pub fn same_rows_reordered(self, keeps_targets: bool) -> bool {
        keeps_targets || self == Law::RowsOfAnyOrder
    }

    /// The counts are demanded to add up to the same then.
    pub fn same_total(self, keeps_targets: bool) -> bool {
        keeps_targets && self == Law::TotalOfCounts
    }
}

/// An edit that rules 24 to 26 let pass, by rows of some length and an alphabet of so many digits.
pub fn is_taken((row, place, digit): Asked, length: usize, digits: usize) -> bool {
    row < 2 && place < length as u64 && digit < digits as u64
}

//! Step 1 of a merge: which run leaves the upper level.

use crate::block::Span;
use crate::fault::{self, Fault};
use std::ops::Range;

/// A run of neighbours of the upper level and the blocks below that it overlaps.
#[derive(Clone, Debug, PartialEq, Eq)]
pub struct Run {
    /// Number of its first block in the upper level.
    pub first: usize,
    /// The overlapped blocks below, Y. If there are none, the empty range stands
    /// where the run's keys would go in (step 1, reading 3).
    pub below: Range<usize>,
}

impl Run {
    /// "The overlap of a run is the number of such blocks."
    pub fn overlap(&self) -> usize {
        self.below.len()
    }
}

/// The blocks below that a key range overlaps: "the block's last key isn't below
/// the run's first key and its first key isn't above the run's last".
fn overlapped(span: Span, lower: &[Span]) -> Range<usize> {
    let start = lower.partition_point(|block| block.last < span.first);
    let end = lower.partition_point(|block| block.first <= span.last);
    start..end
}

/// "X is the run of W(i) neighbours whose key range overlaps the fewest blocks
/// below; of equals, the one with the lowest keys." A run's key range goes from
/// the first key of its first block to the last key of its last (reading 1).
/// None only if the level has fewer than `window` blocks, which no merge meets.
pub fn choose(upper: &[Span], lower: &[Span], window: usize) -> Option<Run> {
    let runs = upper.windows(window).enumerate().map(|(first, run)| {
        let span = Span {
            first: run[0].first,
            last: run[window - 1].last,
        };
        Run {
            first,
            below: overlapped(span, lower),
        }
    });
    if fault::is(Fault::HighestOfEquals) {
        return runs.min_by_key(|run| (run.overlap(), usize::MAX - run.first));
    }
    runs.min_by_key(Run::overlap)
}

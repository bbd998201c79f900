//! The elements that an update keeps, makes new, or starts afresh (document 02, R-1).

use oracle::frame::Update;
use oracle::state::Metadata;

/// Document 02's R-1: one of these updates, applied in turn, meets an element that would be kept
/// and another number of dynamic objects than that of the update before.
pub fn lifts(state: &Metadata, updates: &[&Update]) -> bool {
    met(state, updates).iter().any(|met| met.lifted)
}

/// What the elements of an update meet.
pub struct Met {
    /// Those that are kept by document 01, of all.
    pub kept: usize,
    pub all: usize,
    /// Those that would be kept start afresh.
    pub lifted: bool,
}

/// The same of each of these updates, applied in turn.
pub fn met(state: &Metadata, updates: &[&Update]) -> Vec<Met> {
    let blocks = state.elements.iter().map(|e| e.block_used.len());
    let mut last = Counts {
        objects: state.object_count,
        dynamic: state.object_count.saturating_sub(state.bed_or_isf_objects),
        blocks: blocks.collect(),
    };
    let meets = |update: &&Update| {
        let next = Counts::of(update);
        let kept = last.kept(&next);
        let met = Met {
            kept,
            all: next.blocks.len(),
            lifted: kept > 0 && last.dynamic != next.dynamic,
        };
        last = next;
        met
    };
    updates.iter().map(meets).collect()
}

/// What an update is held against by the next one.
struct Counts {
    objects: usize,
    dynamic: usize,
    /// Of each element.
    blocks: Vec<usize>,
}

impl Counts {
    fn of(update: &Update) -> Self {
        let dynamic = update.objects.saturating_sub(update.bed_or_isf_objects);
        Counts {
            objects: update.objects.into(),
            dynamic: dynamic.into(),
            blocks: update.elements.iter().map(|e| e.blocks.len()).collect(),
        }
    }

    /// The elements that are kept by document 01.
    fn kept(&self, next: &Counts) -> usize {
        if self.objects != next.objects || self.blocks.len() != next.blocks.len() {
            return 0;
        }
        let pairs = self.blocks.iter().zip(&next.blocks);
        pairs.filter(|(a, b)| a == b).count()
    }
}

//! Knows what the items of a batch do to the entries of their regions, to find an item that doesn't fit.

use crate::{Error, Result, Summary};
use std::collections::BTreeMap;
use std::ops::Range;

/// What an item does to the entries of its region.
#[derive(Clone, Copy, Debug)]
pub(super) enum Shape {
    /// Adds entries with the indexes from `first` on and below `end`, and removes those from `first` on that were there.
    Run { first: u64, end: u64 },
    /// Removes all.
    Clean,
    /// Removes those below the index.
    Compact(u64),
    /// Removes those from the index on.
    Truncate(u64),
    /// Changes none: the item puts or deletes a key.
    Pair,
}

/// The indexes of a region's entries, without the end; `None` where it has none.
type Extent = Option<Range<u64>>;

/// The shapes of all items of a batch, in order, each with the region of the item.
#[derive(Debug, Default)]
pub(super) struct Shapes(Vec<(u64, Shape)>);

impl Shapes {
    /// Returns how many items there are.
    pub(super) fn len(&self) -> usize {
        self.0.len()
    }

    /// Makes room for the shape of one more item.
    ///
    /// # Errors
    ///
    /// `Memory`.
    pub(super) fn reserve_one(&mut self) -> Result<()> {
        self.0.try_reserve(1).map_err(|_| Error::memory())
    }

    /// Makes room for the shapes of all items of another batch.
    ///
    /// # Errors
    ///
    /// `Memory`.
    pub(super) fn reserve_for(&mut self, more: &Shapes) -> Result<()> {
        self.0.try_reserve(more.len()).map_err(|_| Error::memory())
    }

    /// Notes the shape of an item of `region` that was added to the batch.
    pub(super) fn note(&mut self, region: u64, shape: Shape) {
        self.0.push((region, shape));
    }

    /// Moves all shapes of `more` behind these. `more` is empty then.
    pub(super) fn append(&mut self, more: &mut Shapes) {
        self.0.append(&mut more.0);
    }

    /// Removes all shapes.
    pub(super) fn clear(&mut self) {
        self.0.clear();
    }

    /// Finds the first item that would be refused: its entries leave a hole behind those of their region, or begin below them, as
    /// these are once all items before it are applied. Returns its position from 0 on, its region, and the index of its first
    /// entry; `None` if all items fit. Only regions for which `is_tested` is true are looked at. `summary` returns what a region
    /// has before the batch.
    pub(super) fn find_refused_item(
        &self,
        is_tested: impl Fn(u64) -> bool,
        mut summary: impl FnMut(u64) -> Option<Summary>,
    ) -> Option<(usize, u64, u64)> {
        let mut extents = BTreeMap::new();
        let tested = self.0.iter().enumerate();
        let mut tested = tested.filter(|(_, (region, _))| is_tested(*region));
        tested.find_map(|(item, (region, shape))| {
            let now = extents
                .entry(*region)
                .or_insert_with(|| extent_of(summary(*region)));
            let misfit = shape.refused_index(now);
            *now = shape.extent_after(now);
            misfit.map(|index| (item, *region, index))
        })
    }
}

impl Shape {
    /// Returns the index of the item's first entry, if its entries don't fit `extent`, the indexes that its region has; `None` if
    /// they do, or the item has no entries.
    fn refused_index(self, extent: &Extent) -> Option<u64> {
        match (self, extent) {
            (Shape::Run { first, .. }, Some(extent)) => {
                let fits = (extent.start..=extent.end).contains(&first);
                (!fits).then_some(first)
            }
            _ => None,
        }
    }

    /// Returns the indexes that a region has once the item is applied. Before it has those of `extent`.
    fn extent_after(self, extent: &Extent) -> Extent {
        let extent = extent.clone();
        let kept = match self {
            Shape::Run { first, end } => Some(extent.map_or(first, |extent| extent.start)..end),
            Shape::Clean => None,
            Shape::Compact(index) => extent.map(|extent| extent.start.max(index)..extent.end),
            Shape::Truncate(index) => extent.map(|extent| extent.start..extent.end.min(index)),
            Shape::Pair => extent,
        };
        kept.filter(|kept| !kept.is_empty())
    }
}

/// Returns the indexes of a region's entries by its summary; `None` where there is no summary, or it has no entries.
fn extent_of(summary: Option<Summary>) -> Extent {
    let summary = summary?;
    let first = summary.first_index?;
    Some(first..first + summary.entries as u64)
}

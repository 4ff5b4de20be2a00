//! The statistics that `test` answers.

use crate::c::Report;
use std::fmt;

/// Statistics of a generation.
#[derive(Default, Debug, Clone, PartialEq, Eq)]
pub struct GenStats {
    /// Collections so far
    pub num_collections: usize,
    /// Allocations
    pub num_size: usize,
    /// The sum of its write barrier's counts
    pub num_remembered_set: usize,
    /// Free cells; of the elder generation `usize::MAX`, as published
    pub free_space: usize,
    /// Cells allocated
    pub values_allocated: usize,
    /// Pointers visited by its collections so far; of the elder generation 0, as published
    pub num_promotions: usize,
}

impl fmt::Display for GenStats {
    fn fmt(&self, f: &mut fmt::Formatter<'_>) -> fmt::Result {
        let lines = [
            ("Number of collections", self.num_collections),
            ("Number of values", self.num_size),
            ("Remembered Set", self.num_remembered_set),
            ("Free space", self.free_space),
            ("Values allocated", self.values_allocated),
            ("Number of promotions", self.num_promotions),
        ];
        writeln!(f, "[")?;
        for (name, number) in lines {
            writeln!(f, "\t{name}: {number}")?;
        }
        writeln!(f, "]")
    }
}

/// Statistics of the heap.
#[derive(Default, Debug, Clone, PartialEq, Eq)]
pub struct MemStats {
    /// Nursery, elder
    pub gen_stats: Vec<GenStats>,
    /// Set where the heap refused to report
    pub memory_leak: bool,
}

impl MemStats {
    pub(crate) fn of(report: &Report) -> Self {
        let [collections, size, values, remembered, free, promotions, elder @ .., leak] =
            report.map(|word| word as usize);
        let [elder_collections, elder_size, elder_values, elder_remembered] = elder;
        let nursery = GenStats {
            num_collections: collections,
            num_size: size,
            num_remembered_set: remembered,
            free_space: free,
            values_allocated: values,
            num_promotions: promotions,
        };
        let elder = GenStats {
            num_collections: elder_collections,
            num_size: elder_size,
            num_remembered_set: elder_remembered,
            free_space: usize::MAX,
            values_allocated: elder_values,
            num_promotions: 0,
        };
        Self { gen_stats: vec![nursery, elder], memory_leak: leak != 0 }
    }

    /// Two generations of zeros, with the leak set.
    pub(crate) fn refused() -> Self {
        Self { gen_stats: vec![GenStats::default(); 2], memory_leak: true }
    }
}

impl fmt::Display for MemStats {
    fn fmt(&self, f: &mut fmt::Formatter<'_>) -> fmt::Result {
        for (number, generation) in self.gen_stats.iter().enumerate() {
            write!(f, "g{number}: {generation}")?;
        }
        Ok(())
    }
}

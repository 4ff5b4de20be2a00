//! The two collectors behind one trait, so that a workload is written once.

pub trait Side: Sized {
    type Value: Copy + Default;

    fn new(sizes: [usize; 4]) -> Self;
    fn int(number: i64) -> Self::Value;
    /// Something of every answer, so that both sides can be held against each other.
    fn trace(value: Self::Value) -> u64;
    fn is_pointer(value: Self::Value) -> bool;
    fn is_elder(value: Self::Value) -> bool;
    fn alloc(&mut self, amount: i64, roots: &mut [Self::Value]) -> Self::Value;
    fn read(&self, array: Self::Value, offset: i64) -> Self::Value;
    fn write(&mut self, array: Self::Value, offset: i64, value: Self::Value);
    fn test(&mut self) -> u64;
}

pub struct Ours(ours::Collector);
pub struct Published(gc::Collector);

const ANSWERED: &str = "a workload stays within the limits";

/// The two have the same names.
macro_rules! side {
    ($side:ident, $crate_name:ident, $new:expr) => {
        impl Side for $side {
            type Value = $crate_name::Value;

            fn new(sizes: [usize; 4]) -> Self {
                let new: fn([usize; 4]) -> $crate_name::Collector = $new;
                Self(new(sizes))
            }

            fn int(number: i64) -> Self::Value {
                $crate_name::Value::Int(number)
            }

            fn trace(value: Self::Value) -> u64 {
                match value {
                    $crate_name::Value::Int(number) => number as u64,
                    $crate_name::Value::Pointer(p) => p.base as u64 + (u64::from(p.heap_id) << 32) + p.offset as u64,
                    _ => 1 << 40,
                }
            }

            fn is_pointer(value: Self::Value) -> bool {
                matches!(value, $crate_name::Value::Pointer(_))
            }

            fn is_elder(value: Self::Value) -> bool {
                matches!(value, $crate_name::Value::Pointer($crate_name::Pointer { heap_id: 1, .. }))
            }

            #[inline]
            fn alloc(&mut self, amount: i64, roots: &mut [Self::Value]) -> Self::Value {
                $crate_name::MemoryManager::alloc(&mut self.0, amount, roots).ok().expect(ANSWERED)
            }

            #[inline]
            fn read(&self, array: Self::Value, offset: i64) -> Self::Value {
                let $crate_name::Value::Pointer(p) = array else { panic!("an array is a pointer") };
                *$crate_name::MemoryManager::read(&self.0, &p.add(offset)).ok().expect(ANSWERED)
            }

            #[inline]
            fn write(&mut self, array: Self::Value, offset: i64, value: Self::Value) {
                let $crate_name::Value::Pointer(p) = array else { panic!("an array is a pointer") };
                $crate_name::MemoryManager::write(&mut self.0, &p.add(offset), value).ok().expect(ANSWERED)
            }

            fn test(&mut self) -> u64 {
                let stats = $crate_name::MemoryManager::test(&mut self.0);
                stats.gen_stats.iter().map(|g| (g.num_collections + g.num_size + g.values_allocated) as u64).sum()
            }
        }
    };
}

side!(Ours, ours, |[nursery_cells, threshold, elder_slots, elder_cells]| {
    ours::Collector::try_new(ours::Sizes { nursery_cells, threshold, elder_slots, elder_cells }).expect(ANSWERED)
});
side!(Published, gc, |[nursery_cells, threshold, _, _]| gc::Collector::new(nursery_cells, 0, threshold));

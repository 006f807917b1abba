//! The comparison's own tests, which need no archive: the heaps that lists begin
//! on, and the ways of allocations.

mod heaps;
mod ways;

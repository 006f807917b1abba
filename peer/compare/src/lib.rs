//! What the comparing programs share: the proved heap's calls (`proved`), the
//! memory that both heaps are lent (`memory`), the two heaps side by side
//! (`pair`), heaps that are built without calls (`heaps`), random damage
//! (`damage`), random lists of calls (`lists`), the ways in which allocations
//! find room (`ways`), all sizes (`sizes`), traces (`lines`, `trial`, `long`)
//! and the programs' options (`options`).

pub mod damage;
pub mod heaps;
pub mod lines;
pub mod lists;
pub mod long;
pub mod memory;
pub mod options;
pub mod pair;
pub mod proved;
pub mod sizes;
pub mod trial;
pub mod ways;

//! The calls on a register: whole lists of them, and on registers that no list leaves behind.

mod announcements;
mod closes;
mod damaged;
mod desk;
mod full;
mod lengths;
mod lists;
mod made;
pub mod pair;
mod rows;
pub mod specimens;

pub use damaged::test as test_damaged;
pub use full::test as test_full;
pub use lists::test as test_lists;
pub use made::test as test_made;

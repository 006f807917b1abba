//! A collected heap over memory that the caller lends: size classes and spans,
//! tri-colour marking with a barrier that shades the old and the new value, and
//! a sweep that goes span by span, a step at a time or where an allocation needs
//! room. `layout` says where everything lies, `calls` is the way in. `ledger`
//! checks a list of calls from outside, and `trace` plays a list of calls that
//! is written down as text.

mod allocation;
mod audit;
mod bits;
pub mod calls;
pub mod classes;
mod collector;
pub mod faults;
mod heap;
pub mod layout;
pub mod ledger;
pub mod random;
mod records;
pub mod trace;

pub use calls::{apply, Answer, Call, Refusal};
pub use layout::Buffers;

//! Document 01 written again by hand: a real list for the ready processes and
//! one for each queue. Nothing here is shared with the proved library.

pub mod bytes;
pub mod calls;
pub mod kernel;
pub mod layout;
pub mod line;
pub mod model;
pub mod page;
pub mod record;
pub mod row;
pub mod sound;
pub mod tables;
pub mod wrong;

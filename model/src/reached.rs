//! What files and runs come to, in classes, to tell whether generated cases reach all of it.

pub mod sums;
pub mod taken_back;

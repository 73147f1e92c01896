//! Stands in for the crate's logging, which the published build leaves out as well.

#[macro_export]
macro_rules! log {
    ($($msg:tt)*) => {};
}

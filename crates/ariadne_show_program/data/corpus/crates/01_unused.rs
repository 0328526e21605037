//! A crate that is asked for and not used.
pub fn pear() {}

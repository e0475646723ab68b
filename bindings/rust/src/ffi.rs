//! The library's constants, structs, and calls, as `include/township.h` declares them. There is a safe
//! function for each call; the rest of the crate contains no unsafe code.

// It is made by a script, in its own layout.
#[rustfmt::skip]
mod declared;
#[cfg(test)]
mod tests;

pub(crate) use self::declared::*;

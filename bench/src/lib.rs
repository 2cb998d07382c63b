//! The Rust's own modules, a library by themselves as they are in their crate, so that they are compiled as its users
//! have them.
extern crate alloc;

#[path = "../../compare/src/stand_in/mod.rs"]
mod stand_in;

// they find the stand-in under the names of their crate
pub(crate) use stand_in::{binding_record, error, float_ext};
#[allow(dead_code)]
pub mod klv {
    include!(concat!(env!("OUT_DIR"), "/klv.rs"));
}

// the one function that is not public in their crate
#[inline]
pub fn peek_matrix_size(bytes: &[u8]) -> Option<usize> {
    klv::st1010::peek_matrix_size(bytes)
}

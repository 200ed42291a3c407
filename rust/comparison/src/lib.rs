//! The library's C interface compared with an independent implementation of document 01.
pub mod compare;
pub mod generate;
pub mod record;
pub mod reference;
pub mod tuned;

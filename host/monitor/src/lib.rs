//! Host tests for the monitor's C library: wrappers over its functions, and
//! random calls made on it and on the model.

pub mod bytes;
pub mod c;
pub mod call;
pub mod files;
pub mod foreign;
pub mod generate;
pub mod laws;
pub mod layout;
pub mod lent;
pub mod library;
pub mod lists;
pub mod loaded;
pub mod outcome;
pub mod pairs;
pub mod questions;
pub mod review;
pub mod wrong;

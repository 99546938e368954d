//! The command `yeruvoi`: what a role file comes to, in words. Every fact of an
//! accepted file is the answer of a proved call of the archive; text, names and
//! explanations are this library's own.

pub mod answer;
pub mod arguments;
pub mod asked;
pub mod bits;
mod c;
pub mod cards;
pub mod check;
pub mod command;
pub mod diff;
pub mod header;
pub mod input;
pub mod json;
pub mod lines;
pub mod list;
pub mod monitor;
pub mod names;
pub mod page;
pub mod paths;
pub mod picture;
pub mod relation;
pub mod rights;
pub mod sessions;
pub mod threads;
pub mod way;
pub mod who;
pub mod why;

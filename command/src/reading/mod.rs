//! The subcommands that read.

pub mod check;
pub mod checked;
pub mod compare;
pub mod differences;
pub mod doubles;
pub mod extract;
pub mod find;
pub mod index;
pub mod list;
pub mod lookup;
pub mod names;
pub mod parts;
pub mod plates;
pub mod show;
pub mod text;
pub mod tree;

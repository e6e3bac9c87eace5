//! Days of the oracle: their text, what is lent of them, how they are made and what document 01 says of them.
//! Shared by generate, compare, sample, port and bench; each uses a part of it.
#![allow(dead_code)]

pub mod damage;
pub mod day;
pub mod families;
pub mod fleet;
pub mod maps;
pub mod options;
pub mod random;
pub mod refusal;
pub mod text;
pub mod walk;

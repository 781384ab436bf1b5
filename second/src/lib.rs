//! An independent second program for a trailer's on-board unit under ITS FORUM RC-004, clause 3.2.
//! It keeps the rules of document 01 and was written from the documents alone, so that another program's
//! answers to the same gate log can be compared with it.

pub mod commands;
pub mod compare;
pub mod damage;
pub mod draw;
pub mod log;
pub mod message;
pub mod random;
pub mod unit;
pub mod wrong;

//! The desk's tool: the calls of the proved library for people. The verdict is always the call's; the words and the pages come from a plain reading of the same
//! text, and where that finds another spot there are no words.

pub mod calls;
pub mod case;
pub mod check;
pub mod commands;
pub mod explain;
pub mod files;
pub mod form;
pub mod gaps;
pub mod json;
pub mod judge;
pub mod labels;
pub mod names;
pub mod options;
pub mod page;
pub mod tree;
pub mod view;
pub mod words;

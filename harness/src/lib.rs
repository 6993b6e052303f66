//! Two plain renderings of document 01 and Cards 1 to 7 of document 02, a clear one and a fast one, and the tools that compare a
//! linked library with them.

pub mod compare;
pub mod fast;
pub mod gen;
pub mod lists;
pub mod plain;
pub mod worded;

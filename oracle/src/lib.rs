//! Drives the original, the judge of the port: images in its own memory layout, histories of calls
//! with their answers, generators of such histories, and the ascending list that says what they mean.

pub mod apply;
pub mod generate;
pub mod history;
pub mod image;
pub mod layout;
pub mod list;

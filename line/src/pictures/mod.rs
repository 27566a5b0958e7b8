//! A line to look at: in words with a small diagram, its chains of rights and source sets
//! and what could ever come about, as a picture with the shapes that it is drawn with, as a
//! graph for other tools, and as a page to step through; the sheet of a shift as a page.

mod arrows;
pub mod chains;
pub mod diagram;
pub mod dot;
mod groups;
mod parts;
pub mod picture;
pub mod potential;
pub mod reach;
mod rights;
pub mod sheet;
pub mod stepping;
pub mod svg;

//! What commissioning found, to be filed: a page to read, print and sign, and the same
//! facts as JSON. With them is what they are about: the files by their hashes, the
//! archive, the kit, the date.

// The build script takes it; here it is tested.
#[cfg(test)]
mod archive_text;
mod calls;
pub mod facts;
mod grids;
pub mod json;
pub mod json_facts;
pub mod page;
mod parts;
mod sections;
pub mod sha256;

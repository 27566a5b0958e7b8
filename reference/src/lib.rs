//! The separate implementation of the capability kernel.
//!
//! It is written from document 01 and the requests of document 02 alone, to be
//! plain rather than fast, and is what the kernel is compared with. It shares no
//! code with the kernel.
//!
//! One module stands for one section of document 01:
//!
//! | Module | Section |
//! |---|---|
//! | [`words`] | the fields of a word |
//! | [`table`] | "The table", and its check, codes 2 to 5 |
//! | [`calls`] | "The calls": the cutting of a list |
//! | [`queue`] | a receive and a send on any twelve words |
//! | [`machine`] | the call-by-call machine, codes 10 to 23 |
//! | [`entry`] | the run of a whole list, codes 1 to 6 |
//! | [`influence`] | "Influence" and "The striking rule" |
//! | [`isolation`] | document 02, request (g): two lines that agree on what reaches a domain |
//! | [`groups`] | document 02, request (j): domains that no list can join |
//! | [`writer`] | document 02, request (c): lists from calls as values, codes 30 and 31 |
//! | [`holders`](mod@holders) | document 02, request (h): the panel's words, codes 6 and 32 |
//! | [`repair`](mod@repair) | document 02, request (k): a table from a worn card, codes 33 and 34 |
//! | [`potential`] | of no paper: the rights that some domains' calls could ever give |
//! | [`could_influence`](mod@could_influence) | of no paper: who could be in the source set of a domain, code 32 |
//! | [`totals`](mod@totals) | document 02, request (e): the end-of-shift sheet, codes 7, 2 to 5 and 1 |
//! | [`turns`] | document 02, request (m): calls handed in one by one, codes 35 to 37 |
//! | [`turn_words`] | what is kept between turns as words, which no paper lays out: code 99 |
//! | [`bytes`] | the table's check over little-endian bytes |
//! | `linerun` | the program: its reading and printing, codes 7 and 1 |
//! | [`example`] | table T, list L and what is printed for it |
//! | [`generate`] | seeded tables, lists, calls and inputs for tests |

pub mod bytes;
pub mod calls;
pub mod could_influence;
pub mod entry;
pub mod example;
pub mod generate;
pub mod groups;
pub mod holders;
pub mod influence;
pub mod isolation;
mod linerun;
pub mod machine;
pub mod potential;
pub mod queue;
pub mod repair;
pub mod table;
pub mod totals;
pub mod turn_words;
pub mod turns;
pub mod words;
pub mod writer;

pub use bytes::check_bytes;
pub use calls::{cut, Call};
pub use could_influence::{could_influence, influence_list};
pub use entry::run;
pub use groups::{component, from_group};
pub use holders::{holders, run_with_holders, step_with_holders, who_reaches};
pub use influence::{influences, purge, sources, view, QueueView, View};
pub use isolation::{agree, members};
pub use linerun::linerun;
pub use machine::step;
pub use potential::{grants_for, grants_for_all, potential_rights};
pub use repair::{repair, undo};
pub use table::check_table;
pub use totals::{totals, totals_of};
pub use turns::{Turn, Turns};
pub use writer::{fits, read, write, write_columns, Value};

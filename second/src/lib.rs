//! The second program: documents 01 and 02 followed word by word with ordinary
//! collections. It reads and writes rule files, judges words on the rule and
//! on a built table, builds the table and prints the listing, and does what the
//! later requests add.
//!
//! Every entry answers `Err(number)` with the number of the refusal table.
//!
//! What a definition says can be read wrongly twice where it is followed by one
//! method twice. So some of it is followed by a method of its own as well: words
//! are judged as games (`game`), all macrostates are tried with each other
//! (`text_build`), all plans are tried (`plans`), the runs of a table are counted
//! (`runs`), and where rules or tables are small a list of words is found that
//! decides what they accept (`decide`).

pub mod build;
pub mod chance;
pub mod choices;
pub mod combine;
pub mod decide;
pub mod dual;
pub mod event_text;
pub mod events;
pub mod every;
pub mod exact;
pub mod follow;
pub mod game;
pub mod graph;
pub mod hanoi;
pub mod hoa;
pub mod judge;
pub mod lines;
pub mod listing;
pub mod live;
pub mod long;
pub mod mixed;
pub mod names;
pub mod plans;
pub mod rule;
pub mod rule_text;
pub mod runs;
pub mod sample;
pub mod sheet;
pub mod spelling;
pub mod stricter;
pub mod table;
pub mod text_build;
pub mod tidy;
pub mod trim;
pub mod why;
pub mod word;

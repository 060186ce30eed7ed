//! An independent second program for the packet target of the build
//! definition (called "01" in the comments; K1 to K14 are the change requests built
//! on it). It shares no code with the target: the two meet through files only.

pub mod address;
pub mod adler;
pub mod answers;
pub mod appendix;
pub mod board;
pub mod cases;
pub mod changer;
pub mod cue;
pub mod drive;
pub mod events;
pub mod examples;
pub mod files;
pub mod limits;
pub mod listing;
pub mod mode_page;
pub mod packet;
pub mod play;
pub mod refusal;
pub mod registers;
pub mod replay;
pub mod rng;
pub mod sense;
pub mod shelf;
pub mod stored;
pub mod sub_channel;
pub mod table;
pub mod tally;
pub mod toc;

//! A second model of the motor bench, to run the bench program against.
//!
//! It was written from the rules, apart from the proved code and without
//! sight of it. It shares no source with that code, so that a slip on one side
//! shows as a difference between the prints.
//!
//! * [`record`]: a motor's record as plain numbers, with its ranges;
//! * [`rules`]: the ten steps of one scan, in named values instead of bits;
//! * [`mod@file`]: the bench program, bytes in and bytes out;
//! * [`dump`]: the second program, bytes in and the dump of the outputs out, and
//!   the reading back of a dump;
//! * [`viewer`]: a reader of value change dumps, whoever wrote them;
//! * [`book`]: the book of commands, kept from a motor's history alone;
//! * [`totals`]: the totals of a sitting, counted from the book;
//! * [`sheets`]: the sheets of the rule book and others worked by hand;
//! * [`sensors`]: the sensor block, one value of three readings;
//! * [`ends`]: files with an LF at each of the first places;
//! * [`words`]: files with each way of writing a word, right and wrong;
//! * [`story`]: random files, whole and damaged, repeatable from a seed;
//! * [`tally`]: what happened in the files, by the model's count;
//! * [`outside`]: running a program on a file;
//! * [`shrink`]: making a file small that shows a difference;
//! * [`fast`]: a second writing of the whole, for speed; the binary `plain`
//!   is this one and uses nothing of the model.
//!
//! Binaries, after `cargo build --release`:
//!
//! * `check PROGRAM [--wave WAVE] [--files N] [--seed S]` compares a program with
//!   the model, and with `--wave` the second one too;
//! * `sheets DIR PROGRAM [--wave WAVE]` compares a folder of files, prints and
//!   dumps with the model and these programs;
//! * `speed PROGRAM [--wave] [--rounds N] [--plain PLAIN]` times a program against
//!   `plain`, which reads and writes in the same way, or with `--wave` the second
//!   one against `plain --wave`.
//!
//! Exit 0: all agree; 1: a difference; 2: it could not be run.

pub mod book;
pub mod dump;
pub mod ends;
pub mod fast;
pub mod file;
pub mod outside;
pub mod record;
pub mod rules;
pub mod sensors;
pub mod sheets;
pub mod shrink;
pub mod story;
pub mod tally;
pub mod totals;
pub mod viewer;
pub mod words;

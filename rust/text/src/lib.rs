//! Sets, layouts, values and runs as text for people, and back to blocks.
//!
//! A text is read line by line into values (`parse`), which are written as blocks (`encode`);
//! blocks are taken apart into the same values (`decode`), which are written as text (`show`).
//! Whether blocks are accepted, whether a set is built and what a record counts is asked of the
//! proved calls (`source`, `commands`). What is told besides is the tool's own: where a build
//! stumbled (`stumble`), what is drawn and not counted (`warn`), which fields a tree's nodes stand
//! for (`parts`), what a record is told (`parameters`) and what lies where in it (`map`).
//! docs/TEXT.md describes the form and the commands.

#![forbid(unsafe_code)]

pub mod commands;
pub mod decode;
pub mod encode;
pub mod eval;
pub mod expr;
pub mod foreign;
pub mod lines;
pub mod map;
pub mod model;
pub mod parameters;
pub mod parse;
pub mod parse_layout;
pub mod parts;
pub mod registry;
pub mod show;
pub mod source;
pub mod stumble;
pub mod svg;
pub mod tree;
pub mod warn;
pub mod words;

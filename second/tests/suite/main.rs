//! The tests, in one program so that its parts share their support.

mod binary;
mod borders;
mod calls;
mod corpus;
mod corpus_outputs;
mod image;
mod listing;
mod program;
mod properties;
mod readings;
mod soundness;
mod support;
mod table;

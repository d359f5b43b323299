//! The published crate, from the text that build.rs laid out (see there for what is edited and supplied).
#![allow(warnings)]
include!(concat!(env!("OUT_DIR"), "/lib.rs"));

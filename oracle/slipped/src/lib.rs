//! The slips of documents 01 and 02 that look right: for each a module that is the oracle but for this one
//! slip, made from the oracle's text by `build.rs`, to show that the cases of a comparison notice.

include!(concat!(env!("OUT_DIR"), "/modules.rs"));

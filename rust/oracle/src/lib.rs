//! The oracle: the original referee compiled from its own folder, a naive
//! reading of documents 01 and 02 beside it, boards to compare the two on,
//! what is left out of that, and the recorded answers of the original.

/// The original, unchanged, from the folder that `build.rs` found. Some of its
/// comments link to names that its own parent module gives.
#[allow(dead_code, clippy::all, rustdoc::broken_intra_doc_links)]
pub mod board {
    include!(concat!(env!("OUT_DIR"), "/board.rs"));
}

pub mod agree;
pub mod boards;
pub mod cases;
pub mod left_out;
pub mod listing;
pub mod naive;
pub mod naive_text;
pub mod original;
pub mod texts;
pub mod vectors;

//! Times, taken side by side: the original and the host interface on the same boards in one run,
//! the second referee beside the fast one, the depth of a question beside its verdict. The frame loop
//! and the percentiles are the package's own, in its example `frame`.

pub mod curves;
pub mod depths;
#[path = "../../renju/examples/frame/frames.rs"]
pub mod frames;
pub mod games;
pub mod machine;
pub mod race;
pub mod rows;
pub mod sets;
#[path = "../../renju/examples/frame/stats.rs"]
pub mod stats;
pub mod suite;
pub mod table;

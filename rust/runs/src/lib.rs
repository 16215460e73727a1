//! The host interface beside the original; what document 02 adds beside plain readings of it.

pub mod depth;
pub mod differential;
pub mod feed;
pub mod growth;
pub mod hints;
pub mod load;
pub mod mending;
pub mod reading;
pub mod sgf;
pub mod stored;
pub mod timing;

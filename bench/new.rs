// The library of this tree.
use crate::shape as calls;
use crate::shape::rows;
use crate::{icotable, ours};
#[path = "side.rs"]
pub mod side;

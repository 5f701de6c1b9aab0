pub use rstd::indexed::{Equivalent, IndexMap, IndexSet};

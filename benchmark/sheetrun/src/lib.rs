//! What the benchmark of sheets measures: the proved run of the archive, the
//! reference's, and the sheets that both are run on.

#![warn(missing_docs)]

pub mod runs;
pub mod workload;

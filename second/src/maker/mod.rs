//! Makes logs and case files by shape and seed, the same ones every time, cuts logs into fragments, and tells what a
//! log's report and a feed case are a test of.

pub mod boards;
pub mod case_shapes;
pub mod cuts;
pub mod feed_shapes;
pub mod log_maker;
pub mod log_shapes;
pub mod random;
pub mod report_shapes;
pub mod season;
pub mod stories;
pub mod traffic;

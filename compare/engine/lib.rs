// The engine's exports, from its static libraries, as functions over slices. A slice crosses as a
// pointer and then a length.

pub mod calls;
pub mod exam;
pub mod jacobi;
pub mod leaves;
pub mod questions;

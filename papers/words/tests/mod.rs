// The tests of the program. What a test expects is written out, or the engine's, never computed by
// what is tested.

mod engine;
mod faults;
mod notation;
mod numbers;
mod words;

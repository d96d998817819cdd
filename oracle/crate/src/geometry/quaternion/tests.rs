//! Glue: empty, where the Rust keeps its unit tests.

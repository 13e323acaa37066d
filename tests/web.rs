//! Tests of framing, requests, walks and ranges that no script of `script_tests` shows, over the public calls of their
//! crates.

/// A path of one name.
mod only_name;
/// What no script shows.
mod unseen;

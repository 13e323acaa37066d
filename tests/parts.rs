//! Tests of small crates over their public calls: JSON values built by their tokens, files of options, the words of the
//! client, and a desk over bytes as a server sends them.

/// JSON values, built and written step by step.
mod json_values;
/// Files of options.
mod option_files;
/// The words of `woz`.
mod client_words;
/// A desk.
mod desks;

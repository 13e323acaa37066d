//! Tests of what no script shows of `gate_tasks`, over its public calls: arguments, statuses, words, connections one
//! after the other, and readers and writers that end, fail or are interrupted.

/// Readers and writers that are slow, are interrupted, or fail.
mod slow;
/// Connections one after the other, over streams and over sockets.
mod connections;
/// Arguments, statuses and words.
mod outcomes;
/// Scripts over readers and writers that end, fail or are interrupted.
mod streams;

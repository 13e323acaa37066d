//! Tests of the gateway over the public calls of `gate_core`, of what no script shows.

/// What callers ask and are told.
mod rows;
/// Stores that fail or lie.
mod hostile;
/// Connections that are forgotten.
mod forgetting;
/// Replies for browsers.
mod browsers;
/// Crashes, and gateways that are resumed after them.
mod restarting;
/// A shelf that fails and has done its change, and a crash after later calls.
mod failed;

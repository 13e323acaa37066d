//! Tests of connections, over the public calls of `gate_flow` and `gate_poll`.

/// A stream that is slow and fails.
mod stream;
/// Connections without their sockets.
mod flows;
/// Many connections over sockets.
mod polling;
/// Whose turn it is, where there is memory.
mod turns;

//! Tests over the public calls of `crates/`, of what no script and no case shows. They are run, and not proved.
#![tactic(auto)]

/// Values of JSON, files of options, the words of `woz`.
#[cfg(test)]
mod parts;
/// Framing, requests, walks and ranges.
#[cfg(test)]
mod web;
/// What no script shows of `gate_tasks`.
#[cfg(test)]
mod script_calls;
/// Connections.
#[cfg(test)]
mod connections;
/// The gateway over stores that fail or lie, and after crashes.
#[cfg(test)]
mod gateway;
/// The server's words, control requests and figures, and one folder.
#[cfg(test)]
mod server;

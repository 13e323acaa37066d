//! Tests of the server's words, control requests and figures, over the public calls of `server_options`, `server_board`
//! and `server_stores`.

/// A share to put into stores.
mod shares;
/// Stores whose folders are missing.
mod missing;
/// Words, control requests, figures, and one folder.
mod serving;

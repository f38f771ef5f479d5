//! Runs a command as an action of a Remote Execution API v2 server, or takes what it made from the server's
//! cache.
pub mod action;
pub mod api;
pub mod compression;
pub mod connection;
pub mod digest;
pub mod failure;
pub mod home;
pub mod known;
pub mod note;
pub mod outputs;
pub mod program;
pub mod remote;
pub mod settings;
pub mod storage;
pub mod words;

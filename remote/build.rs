//! Writes the messages of `proto` as Rust, with their clients, and with servers for tests.
use std::env;
use std::error::Error;

/// Where the API begins; it imports the rest.
const FILES: [&str; 2] = ["remote_execution.proto", "google/bytestream/bytestream.proto"];

fn main() -> Result<(), Box<dyn Error>> {
    println!("cargo::rerun-if-changed=proto");
    let has_server = env::var_os("CARGO_FEATURE_SERVER").is_some();
    let written = tonic_build::configure().build_server(has_server).type_attribute("build.bazel.remote.execution.v2.Digest", "#[derive(Eq)]");
    written.compile_fds(protox::compile(FILES, ["proto"])?)?;
    Ok(())
}

//! Runs a command as an action of a Remote Execution API v2 server, or takes what it made from the server's
//! cache.
use std::env;
use std::os::unix::ffi::OsStringExt;
use std::process::exit;
use zigrunk_remote::program::{self, UNDERSTOOD_NOTHING};
use zigrunk_remote::words::{self, Asked, USAGE};

fn main() {
    let words: Vec<String> = env::args_os().skip(1).map(|word| word.to_string_lossy().into_owned()).collect();
    let environment: Vec<(Vec<u8>, Vec<u8>)> =
        env::vars_os().map(|(name, value)| (name.into_vec(), value.into_vec())).collect();
    exit(match words::read(&words) {
        Ok(Asked::Help) => {
            print!("{USAGE}");
            0
        }
        Ok(Asked::Check) => program::check(),
        Ok(Asked::Command(command)) => program::run(*command, &environment),
        Err(error) => {
            eprint!("zigrunk-remote: {error}\n{USAGE}");
            UNDERSTOOD_NOTHING
        }
    });
}

//! The tests' server as a program: `server`, which prints its address and runs until it is ended. Not for
//! use: it takes anyone.
#[path = "../tests/fake/mod.rs"]
#[allow(dead_code)]
mod fake;

use fake::{Fake, State};
use std::io::{self, Read};

fn main() -> io::Result<()> {
    let server = Fake::new(State::default());
    println!("grpc://{}", server.address);
    io::stdin().read_to_end(&mut Vec::new()).map(|_| ())
}

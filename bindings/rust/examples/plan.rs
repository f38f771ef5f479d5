//! Plans a call of nvcc: `plan CWD TMP NVCC WORD..`, with the words behind nvcc's name. It prints each command with the numbers of those
//! that have to end before it starts.

use std::error::Error;
use std::{env, process};

use zigrunk::{Call, NvccCall, quote, variables};

fn main() -> Result<(), Box<dyn Error>> {
    let arguments: Vec<String> = env::args().skip(1).collect();
    let [cwd, tmp, nvcc, words @ ..] = arguments.as_slice() else {
        eprintln!("usage: plan CWD TMP NVCC WORD..");
        process::exit(2);
    };
    let environment: Vec<_> = env::vars_os().collect();
    let call = Call::new(&NvccCall::new(nvcc, words).at(cwd, tmp).variables(&variables(&environment)))?;
    for command in call.plan()?.commands() {
        println!("{} {:?} {}", command.number(), command.needs(), quote(command.words())?);
    }
    Ok(())
}

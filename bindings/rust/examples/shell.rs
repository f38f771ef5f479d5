//! Plans one nvcc call as a script for a shell: `shell CWD TMP FLAG DRY1 DRY2`. The files hold what nvcc's two dry runs print on
//! standard error. A program that isn't on this machine counts as being at the first path that its look-up tries, so that you
//! can plan for another machine.

use std::error::Error;
use std::{env, fs, process};

use zigrunk::{Format, PlanCall, candidates, find_programs, plan};

fn main() -> Result<(), Box<dyn Error>> {
    let words: Vec<String> = env::args().skip(1).collect();
    let [cwd, tmp, flag, first, second] = words.as_slice() else {
        eprintln!("usage: shell CWD TMP FLAG DRY1 DRY2");
        process::exit(2);
    };
    let (dry1, dry2) = (fs::read(first)?, fs::read(second)?);
    let mut programs = find_programs(&dry1, &dry2, cwd.as_ref(), None)?;
    for program in programs.iter_mut().filter(|program| program.found.is_none()) {
        program.found = candidates(&program.lookup, cwd.as_ref())?.get(0).map(String::from);
    }
    // The commands run in the environment of the shell that reads the script.
    let plan = plan(&PlanCall { flag, ..PlanCall::new(&dry1, &dry2, &programs).at(cwd, tmp) })?;
    print!("{}", plan.text(Format::Shell)?);
    Ok(())
}

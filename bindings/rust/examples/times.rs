//! Plans a call many times in one process, and prints the mean in nanoseconds: `times N CWD TMP FLAG DRY1 DRY2`. Each program
//! counts as being at the first path that its look-up tries. The look-ups aren't in the time.

use std::error::Error;
use std::hint::black_box;
use std::time::Instant;
use std::{env, fs, process};

use zigrunk::{FoundProgram, PlanCall, candidates, lookups, plan};

fn main() -> Result<(), Box<dyn Error>> {
    let words: Vec<String> = env::args().skip(1).collect();
    let [count, cwd, tmp, flag, first, second] = words.as_slice() else {
        eprintln!("usage: times N CWD TMP FLAG DRY1 DRY2");
        process::exit(2);
    };
    let (count, dry1, dry2) = (count.parse::<u32>()?, fs::read(first)?, fs::read(second)?);
    let mut programs = Vec::new();
    for lookup in lookups(&dry1, &dry2, cwd.as_ref(), None)? {
        programs.push(FoundProgram { found: candidates(&lookup, cwd.as_ref())?.get(0).map(String::from), lookup });
    }
    let call = PlanCall { flag, ..PlanCall::new(&dry1, &dry2, &programs).at(cwd, tmp) };
    let start = Instant::now();
    for _ in 0..count {
        black_box(plan(black_box(&call))?);
    }
    println!("{}", start.elapsed().as_nanos() / u128::from(count.max(1)));
    Ok(())
}

//! Plans two dry runs again and again and writes nothing, by the crates that the plain libzigrunk has, so that tests/instructions.sh can count
//! what one plan costs.
//!
//!     plan_alone COUNT CWD TMP FLAG DRY1 DRY2
use compilers::compiler::NvccHostCompiler;
use cuda_plans::dry_run::{FirstDir, Suffixes};
use cuda_plans::plan::group_nvcc_subcommands_by_compilation_stage;
use rattle_std::alloc::Global;
use std::error::Error;

fn main() -> Result<(), Box<dyn Error>> {
    let words: Vec<String> = std::env::args().skip(1).collect();
    let [count, cwd, tmp, flag, dry1, dry2] = words.as_slice() else { return Err("six words are wanted".into()) };
    let (dry1, dry2) = (std::fs::read(dry1)?, std::fs::read(dry2)?);
    let suffixes = Suffixes::standard();
    for _ in 0..count.parse::<usize>()? {
        let (host, dir) = (NvccHostCompiler::Gcc, FirstDir);
        let plan = group_nvcc_subcommands_by_compilation_stage(Global, &dry1, &dry2, flag, cwd, tmp, None, &[], host, &dir, &suffixes);
        plan.map_err(|fault| fault.to_string())?;
    }
    Ok(())
}

//! What one `nvcc` call really runs.
//!
//! nvcc is a driver: for each GPU architecture it runs a preprocessor, cicc and ptxas, and then links the results into one object. It
//! prints these commands if you ask for a dry run. A call goes in here, and a plan comes out: the commands of the call in groups, with
//! what each reads, writes and waits for, and the commands that the plan dropped, each with the reason.
//!
//! ```no_run
//! # fn main() -> Result<(), Box<dyn std::error::Error>> {
//! use zigrunk::{Call, NvccCall, variables};
//! let environment: Vec<_> = std::env::vars_os().collect();
//! let variables = variables(&environment);
//! let call = Call::new(&NvccCall::new("nvcc", &["-c", "k.cu", "-o", "k.o"]).at("/w", "/t").variables(&variables))?;
//! for command in call.plan()?.commands() {
//!     println!("{}, when {:?} have ended: {}", command.number(), command.needs(), command.program());
//! }
//! # Ok(())
//! # }
//! ```
//!
//! [`Call::plan`] runs nvcc's dry runs on this machine, and looks on its disk for the programs that they name. Nothing else here starts a
//! process: [`Call::plan_of`] plans dry runs that you have, with [`Programs`] that you know, for any machine. Both refuse dry runs that
//! aren't those of the line. [`plan()`] plans two dry runs alone.
//! [`Plan::text`] writes a plan as JSON, as a Ninja file, as a shell script or for people. A [`schedule`] says in which order to run
//! the commands.
//!
//! Calls share no state, so any number of threads may call. The same input always gives the same answer, unless an allocation fails.

pub mod schedule;

/// # Example
///
/// ```no_run
/// # fn main() -> Result<(), Box<dyn std::error::Error>> {
/// # let words = ["-c", "k.cu"];
/// use zigrunk::{Call, NvccCall, quote};
/// for command in Call::new(&NvccCall::new("nvcc", &words).at("/w", "/t"))?.plan()?.commands() {
///     println!("{:?} {}", command.needs(), quote(command.words())?);
/// }
/// # Ok(())
/// # }
/// ```
pub use call::Call;

/// # Example
///
/// ```
/// use zigrunk::{ErrorKind, Input, PlanCall, plan};
/// let programs = Vec::new();
/// let error = plan(&PlanCall::new(b"nvcc: not found", b"", &programs).at("/w", "/t")).unwrap_err();
/// assert_eq!((error.kind(), error.place().map(|place| place.input)), (ErrorKind::NoDryRun, Some(Input::First)));
/// assert_eq!(error.to_string(), "the first text is no dry run: no line begins with \"#$ \"");
/// ```
pub use call::Error;

/// # Example
///
/// ```
/// # let dry1 = b"#$ PATH=/b\n#$ gcc -D__NVCC__ -E k.cu -o k.cpp1.ii\n#$ cicc --module_id_file_name m k.cpp1.ii -o k.ptx\n";
/// # let dry2 = b"#$ PATH=/b\n#$ gcc -D__NVCC__ -E k.cu -o /t/k.cpp1.ii\n#$ cicc --module_id_file_name m k.cpp1.ii -o k.ptx\n";
/// # let lookups = zigrunk::lookups(dry1, dry2, "/w".as_ref(), None)?;
/// # let programs: Vec<_> = lookups.into_iter().map(|it| zigrunk::FoundProgram { found: Some(format!("/b/{}", it.program)), lookup: it }).collect();
/// use zigrunk::{PlanCall, plan};
/// let plan = plan(&PlanCall { flag: "-c", ..PlanCall::new(dry1, dry2, &programs).at("/w", "/t") })?;
/// let cicc = plan.commands().last().expect("a command");
/// assert_eq!(cicc.needs(), [0]);
/// assert!(cicc.reads().eq(["/t/x_0.cpp1.ii", "/t/m"]) && cicc.writes().eq(["/t/k.ptx"]));
/// # Ok::<(), zigrunk::Error>(())
/// ```
pub use call::Plan;

/// # Example
///
/// ```
/// use zigrunk::{LineCall, Tool, line_words};
/// let words = ["-arch=sm_80", "k.ptx", "-o", "k.cubin"];
/// let call = LineCall { tool: Tool::Ptxas, cwd: "/w".as_ref(), words: &words, variables: &[] };
/// assert!(line_words(&call)?.iter().any(|word| word == "/w/k.cubin"));
/// # Ok::<(), zigrunk::Error>(())
/// ```
pub use call::LineCall;

/// # Example
///
/// ```
/// use zigrunk::{CommandTool, KeyCall, command_key};
/// let key = |tmp: &str| {
///     let words = ["ptxas".to_string(), format!("{tmp}/k.ptx"), "-o".to_string(), format!("{tmp}/k.cubin")];
///     command_key(&KeyCall { tool: CommandTool::Ptxas, words: &words, variables: &[], roots: &[tmp.as_ref()] })
/// };
/// assert_eq!(key("/tmp/a")?, key("/var/tmp/b")?);
/// # Ok::<(), zigrunk::Error>(())
/// ```
pub use call::command_key;

/// # Example
///
/// ```
/// let output = b"# 1 \"k.cu\"\n# 1 \"<built-in>\"\n# 1 \"/usr/include/a\\\\b.h\" 1 3\nint a;\n# 2 \"k.cu\" 2\n";
/// assert_eq!(zigrunk::headers(output)?, ["k.cu", "/usr/include/a\\b.h"]);
/// # Ok::<(), zigrunk::OutOfMemory>(())
/// ```
pub use call::headers;

/// # Example
///
/// ```
/// let words = zigrunk::split("nvcc -c 'my kernel.cu'")?;
/// assert_eq!(words.iter().collect::<Vec<_>>(), ["nvcc", "-c", "my kernel.cu"]);
/// # Ok::<(), zigrunk::Error>(())
/// ```
pub use call::split;

/// # Example
///
/// ```
/// assert_eq!(zigrunk::quote(["-DA=it's", ""])?, r"'-DA=it'\''s' ''");
/// # Ok::<(), zigrunk::Error>(())
/// ```
pub use call::quote;

/// # Example
///
/// ```
/// let environment: Vec<_> = std::env::vars_os().collect();
/// assert_eq!(zigrunk::variables(&environment).len(), environment.len());
/// ```
pub use call::variables;

pub use call::{
    CacheKey, ColorMode, Command, CommandTool, Commands, Disk, DropReason, DryRuns, ErrorKind, FLAG_VARIABLES, Format,
    FoundProgram, Group, Groups, HostCompiler, Input, KeyCall, Language, Line, LineReason, Lookup, Missing, Nvcc, NvccCall,
    NvccLine, OutOfMemory, Outline, Output, Place, PlanCall, Planning, Processes, Programs, Ran, Reason, Run, Stage, Texts,
    TextsIter, Tool, Variable, Variables, candidates, find_programs, line_records, line_words, lookups, plan, remap,
};

/// The library's version, such as `0.2.0`.
pub const VERSION: &str = env!("CARGO_PKG_VERSION");

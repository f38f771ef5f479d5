//! A log for tests.
use crate::log::Log;

/// A log of four calls, a hint and a line that is no entry.
pub const SMALL: &str = concat!(
    r#"{"begin":12.0,"end":15.0,"status":2,"commands":[{"kind":"cicc compute_90","asked":12.0,"begin":12.0,"end":15.0,"status":2}],"words":["nvcc","-c","b.cu","-DNAME=a_value_that_goes_on_and_on_until_the_line_is_longer_than_what_the_report_prints_of_it"]}"#,
    "\n",
    r#"{"begin":10.0,"end":14.0,"status":0,"commands":[{"kind":"gcc -E","asked":10.0,"begin":10.5,"end":11.5,"status":0,"needs":[]},{"kind":"cicc compute_80","asked":11.0,"begin":12.0,"end":14.0,"status":0,"hit":false,"needs":[0]}],"words":["nvcc","-c","a.cu"]}"#,
    "\n",
    r#"{"begin":15.0,"end":16.0,"status":0,"reason":"it links","compiles":false,"commands":[],"words":["nvcc","a.o"]}"#,
    "\n",
    r#"{"begin":15.0,"end":15.5,"status":0,"reason":"a dry run fails","commands":[],"words":["nvcc","-c","c.cu"]}"#,
    "\n",
    r#"{"hint":"do this"}"#,
    "\n",
    r#"{"hint":"do this"}"#,
    "\n",
    "no entry\n",
);

pub fn small() -> Log {
    let mut log = Log::default();
    log.add(SMALL.as_bytes());
    log
}

//! A log in a few lines of text.
use super::log::{Log, number, share, sum};
use super::log_lines::{Call, Command};
use super::machines;
use std::fmt::Write;

/// How many of the slowest commands are shown.
const SLOWEST: usize = 5;
/// How many of the calls that failed are shown, since one bad header fails a hundred of them.
const FAILED: usize = 10;
/// How many characters of a call's words are shown, so that a call is a line.
const WIDTH: usize = 100;

/// The words of a call, so many characters of them.
pub fn words_of(call: &Call, width: usize) -> String {
    call.words.join(" ").chars().take(width).collect()
}

/// The summary of a log.
pub fn summary(log: &Log) -> String {
    let mut text = String::new();
    // No error, since writing to a text can't fail.
    let _ = write_all(&mut text, log);
    text
}

fn write_all(text: &mut String, log: &Log) -> std::fmt::Result {
    let failed = log.failed().count();
    writeln!(text, "calls: {}, failed: {failed}", log.calls.len())?;
    for call in log.failed().take(FAILED) {
        writeln!(text, "  status {}: {}", call.status, words_of(call, WIDTH))?;
    }
    if failed > FAILED {
        writeln!(text, "  and {} more", failed - FAILED)?;
    }
    let others = log.calls.len() - log.compiling();
    let others = if others == 0 { String::new() } else { format!("; no compilation: {others}") };
    writeln!(text, "split: {}{others}", share(log.split(), log.compiling()))?;
    for (reason, count) in log.reasons() {
        writeln!(text, "  {count:6}  to nvcc: {reason}")?;
    }
    for hint in &log.hints {
        writeln!(text, "  hint: {hint}")?;
    }
    if let Some((hits, misses)) = log.hits() {
        writeln!(
            text,
            "hits: {hits} of {} ({:.0} %)",
            hits + misses,
            100.0 * hits / (hits + misses).max(1.0)
        )?;
    }
    if log.commands().next().is_some() {
        write_commands(text, log)?;
    }
    machines::write(text, log)?;
    if !log.calls.is_empty() {
        write_times(text, log)?;
    }
    if log.bad > 0 {
        writeln!(text, "\n{} lines are no entries of such a log", log.bad)?;
    }
    Ok(())
}

/// The seconds of each program's commands, most first.
fn kinds(log: &Log) -> Vec<(&str, usize, f64)> {
    let mut kinds: Vec<(&str, usize, f64)> = Vec::new();
    for (command, _) in log.commands() {
        let kind = command.kind.split(' ').next().unwrap_or_default();
        match kinds.iter_mut().find(|(other, ..)| *other == kind) {
            Some((_, count, seconds)) => (*count, *seconds) = (*count + 1, *seconds + command.seconds()),
            None => kinds.push((kind, 1, command.seconds())),
        }
    }
    kinds.sort_by(|one, other| other.2.total_cmp(&one.2));
    kinds
}

/// The commands that took longest, longest first.
pub fn slowest(log: &Log, most: usize) -> Vec<(&Command, &Call)> {
    let mut commands: Vec<_> = log.commands().collect();
    commands.sort_by(|one, other| other.0.seconds().total_cmp(&one.0.seconds()));
    commands.truncate(most);
    commands
}

fn write_commands(text: &mut String, log: &Log) -> std::fmt::Result {
    writeln!(text, "\ncommands:")?;
    for (kind, count, seconds) in kinds(log) {
        writeln!(text, "  {count:6}  {seconds:9.2} s  {:7.2} s each  {kind}", seconds / number(count))?;
    }
    writeln!(text, "\nthe slowest:")?;
    for (command, call) in slowest(log, SLOWEST) {
        writeln!(text, "  {:9.2} s  {}  of  {}", command.seconds(), command.kind, call.source())?;
    }
    Ok(())
}

/// What the commands took one after the other, and how long it took with them side by side.
fn write_times(text: &mut String, log: &Log) -> std::fmt::Result {
    let (begin, end) = log.span();
    let work = sum(log.commands().map(|(command, _)| command.seconds()));
    let waited = sum(log.commands().map(|(command, _)| command.waited()));
    let split = sum(log.calls.iter().filter(|call| !call.commands.is_empty()).map(Call::seconds));
    writeln!(text, "\nfrom the first call's begin to the last one's end: {:.2} s", end - begin)?;
    write!(text, "commands of split calls, one after the other: {work:.2} s; those calls: {split:.2} s, ")?;
    writeln!(text, "of which commands waited {waited:.2} s for a slot, some at the same time")?;
    if end > begin {
        writeln!(text, "commands that ran at once, on average: {:.1}", work / (end - begin))?;
    }
    Ok(())
}

#[cfg(test)]
mod tests {
    use super::*;
    use crate::small::small;

    #[test]
    fn a_small_log_has_a_small_summary() {
        let wanted = "calls: 4, failed: 1
  status 2: nvcc -c b.cu -DNAME=a_value_that_goes_on_and_on_until_the_line_is_longer_than_what_the_report_prints
split: 2 of 3 (67 %); no compilation: 1
       1  to nvcc: a dry run fails
       1  to nvcc: it links
  hint: do this
hits: 0 of 1 (0 %)

commands:
       2       5.00 s     2.50 s each  cicc
       1       1.00 s     1.00 s each  gcc

the slowest:
       3.00 s  cicc compute_90  of  b.cu
       2.00 s  cicc compute_80  of  a.cu
       1.00 s  gcc -E  of  a.cu

from the first call's begin to the last one's end: 6.00 s
commands of split calls, one after the other: 6.00 s; those calls: 7.00 s, of which commands waited 1.50 s for a slot, some at the same time
commands that ran at once, on average: 1.0

1 lines are no entries of such a log
";
        assert_eq!(summary(&small()), wanted);
    }

    #[test]
    fn calls_that_failed_are_named_up_to_ten() {
        let mut log = Log::default();
        for status in 0..13 {
            log.add(format!(r#"{{"begin":1,"end":2,"status":{status},"reason":"x","commands":[],"words":["nvcc","{status}.cu"]}}"#).as_bytes());
        }
        let text = summary(&log);
        let lines: Vec<&str> = text.lines().take(13).collect();
        assert_eq!(
            (lines[0], lines[1], lines[10]),
            ("calls: 13, failed: 12", "  status 1: nvcc 1.cu", "  status 10: nvcc 10.cu")
        );
        assert_eq!(lines[11..], ["  and 2 more", "split: 0 of 13 (0 %)"]);
    }

    #[test]
    fn a_log_without_a_split_call_has_times() {
        let mut log = Log::default();
        log.add(br#"{"begin":1,"end":2,"status":0,"reason":"x","commands":[],"words":[]}"#);
        let wanted = "commands of split calls, one after the other: 0.00 s; those calls: 0.00 s, of which commands waited 0.00 s for a slot";
        assert!(summary(&log).contains(wanted), "{}", summary(&log));
    }

    #[test]
    fn an_empty_log_has_a_summary() {
        assert_eq!(summary(&Log::default()), "calls: 0, failed: 0\nsplit: 0 of 0\n");
    }
}

//! What a batch says while it runs: how many calls have ended, how many of them failed, and how fast.
use std::io::Write;
use std::time::{Duration, Instant};

/// How often it says something at most, since each line stays in a log.
const OFTEN: Duration = Duration::from_secs(1);
/// The same on a terminal. More often, because there it's one line that the next one overwrites.
const OFTEN_ON_TERMINAL: Duration = Duration::from_millis(100);
/// How many characters of a terminal's line are used: a longer one would wrap, and not be overwritten.
const WIDTH: usize = 79;

/// How a batch says it.
#[derive(Clone, Copy, PartialEq, Eq, Debug)]
pub enum Form {
    Silent,
    Lines,
    Terminal,
}

/// How far a batch is.
#[derive(Clone, PartialEq, Eq, Debug, Default)]
pub struct Count {
    pub calls: usize,
    pub ended: usize,
    pub failed: usize,
    pub commands: usize,
}

/// Says how far a batch is.
pub struct Progress<W> {
    form: Form,
    to: W,
    begun: Instant,
    /// When it was said last, and what.
    said: Option<(Instant, String)>,
    has_line: bool,
}

/// How far a batch is, in words. `name` is the call whose command started last.
fn line(count: &Count, seconds: f64, name: &str) -> String {
    let failed = if count.failed > 0 { format!(", {} failed", count.failed) } else { String::new() };
    let commands = f64::from(u32::try_from(count.commands).unwrap_or(u32::MAX));
    let rate = if seconds >= 1.0 { format!(", {:.1} a second", commands / seconds) } else { String::new() };
    format!(
        "zigrunk batch: {} of {} calls{failed}, {} commands{rate}: {name}",
        count.ended, count.calls, count.commands
    )
}

impl<W: Write> Progress<W> {
    pub fn new(form: Form, to: W) -> Progress<W> {
        Progress { form, to, begun: Instant::now(), said: None, has_line: false }
    }

    /// Says how far the batch is, if that has changed and it's time, or if it is `urgent`.
    pub fn update(&mut self, count: &Count, name: &str, urgent: bool) {
        let often = if self.form == Form::Terminal { OFTEN_ON_TERMINAL } else { OFTEN };
        let is_time = self.said.as_ref().is_none_or(|(time, _)| time.elapsed() >= often);
        if self.form == Form::Silent || !(is_time || urgent) {
            return;
        }
        let line = line(count, self.begun.elapsed().as_secs_f64(), name);
        if self.said.as_ref().is_some_and(|(_, said)| *said == line) {
            return;
        }
        // No error, since nobody has to read it.
        let _ = if self.form == Form::Terminal {
            write!(self.to, "\r\x1b[K{}", line.chars().take(WIDTH).collect::<String>())
        } else {
            writeln!(self.to, "{line}")
        };
        let _ = self.to.flush();
        self.has_line = self.form == Form::Terminal;
        self.said = Some((Instant::now(), line));
    }

    /// Makes room for what calls say.
    pub fn clear(&mut self) {
        if std::mem::take(&mut self.has_line) {
            let _ = write!(self.to, "\r\x1b[K").and_then(|()| self.to.flush());
            self.said = None;
        }
    }
}

#[cfg(test)]
mod tests {
    use super::*;

    fn count() -> Count {
        Count { calls: 5, ended: 2, failed: 1, commands: 12 }
    }

    #[test]
    fn lines_say_how_far_it_is() {
        assert_eq!(
            line(&count(), 4.0, "a.cu"),
            "zigrunk batch: 2 of 5 calls, 1 failed, 12 commands, 3.0 a second: a.cu"
        );
        assert_eq!(
            line(&Count { failed: 0, ..count() }, 0.5, "a.cu"),
            "zigrunk batch: 2 of 5 calls, 12 commands: a.cu"
        );
    }

    #[test]
    fn it_says_little() {
        let mut to = Vec::new();
        let mut progress = Progress::new(Form::Lines, &mut to);
        progress.update(&count(), "a", false);
        progress.update(&Count { ended: 3, ..count() }, "b", false);
        progress.update(&Count { ended: 4, ..count() }, "c", true);
        progress.update(&Count { ended: 4, ..count() }, "c", true);
        progress.clear();
        assert_eq!(String::from_utf8(to).unwrap().lines().count(), 2);
        let mut to = Vec::new();
        Progress::new(Form::Silent, &mut to).update(&count(), "a", true);
        assert!(to.is_empty());
    }

    #[test]
    fn a_terminal_has_one_line() {
        let mut to = Vec::new();
        let mut progress = Progress::new(Form::Terminal, &mut to);
        progress.update(&count(), &"x".repeat(200), false);
        progress.clear();
        progress.clear();
        let said = String::from_utf8(to).unwrap();
        assert!(
            said.starts_with("\r\x1b[Kzigrunk") && said.ends_with("x\r\x1b[K") && said.len() == 4 + WIDTH + 4,
            "{said}"
        );
    }
}

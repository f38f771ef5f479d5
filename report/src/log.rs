//! What a log says, and sums of it.
use crate::log_lines::{Call, Command, Entry, entry};

/// What a log says.
#[derive(Clone, PartialEq, Debug, Default)]
pub struct Log {
    pub calls: Vec<Call>,
    pub hints: Vec<String>,
    /// How many lines are no entries.
    pub bad: usize,
}

impl Log {
    /// Adds the lines of a file. Says whether it is a log: it is empty, or has an entry.
    pub fn add(&mut self, text: &[u8]) -> bool {
        let (mut lines, bad) = (0, self.bad);
        for line in text.split(|&byte| byte == b'\n').filter(|line| !line.is_empty()) {
            lines += 1;
            match entry(line) {
                Some(Entry::Call(call)) => self.calls.push(call),
                Some(Entry::Hint { hint }) if self.hints.contains(&hint) => {}
                Some(Entry::Hint { hint }) => self.hints.push(hint),
                None => self.bad += 1,
            }
        }
        lines == 0 || self.bad - bad < lines
    }

    /// The calls that failed.
    pub fn failed(&self) -> impl Iterator<Item = &Call> {
        self.calls.iter().filter(|call| call.status != 0)
    }

    /// The commands of all calls, with their calls.
    pub fn commands(&self) -> impl Iterator<Item = (&Command, &Call)> {
        self.calls.iter().flat_map(|call| call.commands.iter().map(move |command| (command, call)))
    }

    /// When the first call begins and the last one ends, in seconds.
    pub fn span(&self) -> (f64, f64) {
        let begin = self.calls.iter().map(|call| call.begin).fold(f64::INFINITY, f64::min);
        let end = self.calls.iter().map(|call| call.end).fold(f64::NEG_INFINITY, f64::max);
        if begin <= end { (begin, end) } else { (0.0, 0.0) }
    }

    /// How many calls nvcc made for each reason, most first.
    pub fn reasons(&self) -> Vec<(&str, usize)> {
        let mut reasons: Vec<(&str, usize)> = Vec::new();
        for reason in self.calls.iter().filter_map(|call| call.reason.as_deref()) {
            match reasons.iter_mut().find(|(other, _)| *other == reason) {
                Some((_, count)) => *count += 1,
                None => reasons.push((reason, 1)),
            }
        }
        reasons.sort_by(|one, other| other.1.cmp(&one.1).then(one.0.cmp(other.0)));
        reasons
    }

    /// How many hits and misses the cache had: by the commands of which the log says it, or else by what the
    /// cache counted for all its callers between the first of these calls and the last. `None` if the log
    /// doesn't say it.
    pub fn hits(&self) -> Option<(f64, f64)> {
        let hits: Vec<bool> = self.commands().filter_map(|(command, _)| command.hit).collect();
        if !hits.is_empty() {
            let hit = hits.iter().filter(|&&hit| hit).count();
            return Some((number(hit), number(hits.len() - hit)));
        }
        let counted: Vec<[f64; 4]> = self.calls.iter().filter_map(|call| call.counted).collect();
        let rise = |at: usize| {
            let from = counted.iter().map(|counts| counts[at]).fold(f64::INFINITY, f64::min);
            (counted.iter().map(|counts| counts[at + 2]).fold(0.0, f64::max) - from).max(0.0)
        };
        (!counted.is_empty()).then(|| (rise(0), rise(1)))
    }

    /// How many calls compile something.
    pub fn compiling(&self) -> usize {
        self.calls.iter().filter(|call| call.compiles).count()
    }

    pub fn split(&self) -> usize {
        self.calls.iter().filter(|call| call.reason.is_none()).count()
    }
}

/// A part of a whole in words.
pub fn share(part: usize, whole: usize) -> String {
    if whole == 0 {
        format!("{part} of 0")
    } else {
        format!("{part} of {whole} ({:.0} %)", 100.0 * number(part) / number(whole))
    }
}

/// A sum of seconds; of none, std's own is -0.
pub fn sum(seconds: impl Iterator<Item = f64>) -> f64 {
    seconds.fold(0.0, |sum, seconds| sum + seconds)
}

/// A count as a number with fractions.
#[allow(clippy::cast_precision_loss)]
pub fn number(count: usize) -> f64 {
    count as f64
}

#[cfg(test)]
mod tests {
    use crate::small::small;

    #[test]
    fn a_log_is_what_its_lines_say() {
        let log = small();
        assert_eq!(
            (log.calls.len(), log.hints.as_slice(), log.bad, log.split(), log.span()),
            (4, &["do this".to_owned()][..], 1, 2, (10.0, 16.0))
        );
        assert_eq!(log.reasons(), [("a dry run fails", 1), ("it links", 1)]);
    }
}

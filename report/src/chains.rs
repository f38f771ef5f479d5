//! What can't be faster with more slots: the longest chain of a call's commands. And what zigrunk itself took
//! of a call.
use super::log::sum;
use super::log_lines::{Call, Command};

/// A command of a chain.
#[derive(Clone, Copy, PartialEq, Debug)]
pub struct Link {
    /// Its number in the call.
    pub command: usize,
    /// The seconds that count: of a command that began before the one in front of it had ended, only the
    /// rest, since the chain would otherwise be longer than its call.
    pub seconds: f64,
}

/// The best chain that ends with a command.
struct Best {
    /// How long it takes.
    length: f64,
    /// When the last of its commands ended: not always that of the last one, since one that began early may
    /// have ended before the one that it needs.
    end: f64,
    link: Link,
    before: Option<usize>,
}

/// The best chain that ends with the command of a number, given those of earlier ones. `None` if the log
/// doesn't say what it needs.
fn best(command: &Command, number: usize, earlier: &[Best]) -> Option<Best> {
    let behind = |&need: &usize| {
        let before = earlier.get(need)?;
        let (seconds, end) = (command.seconds_after(before.end), before.end.max(command.end));
        Some(Best {
            length: before.length + seconds,
            end,
            link: Link { command: number, seconds },
            before: Some(need),
        })
    };
    let seconds = command.seconds();
    let alone =
        Best { length: seconds, end: command.end, link: Link { command: number, seconds }, before: None };
    let chains = command.needs.as_ref()?.iter().filter_map(behind);
    Some(chains.fold(alone, |best, chain| if chain.length >= best.length { chain } else { best }))
}

/// A call's longest chain of commands that wait for each other, in order, if the log says what each command
/// needs. It takes no longer than the call.
pub fn longest_chain(call: &Call) -> Option<Vec<Link>> {
    let mut chains: Vec<Best> = Vec::with_capacity(call.commands.len());
    for (number, command) in call.commands.iter().enumerate() {
        chains.push(best(command, number, &chains)?);
    }
    let mut at = (0..chains.len()).max_by(|&one, &other| chains[one].length.total_cmp(&chains[other].length));
    let mut chain = Vec::new();
    while let Some(number) = at {
        chain.push(chains[number].link);
        at = chains[number].before;
    }
    chain.reverse();
    Some(chain)
}

/// The seconds of a chain.
pub fn seconds_of(chain: &[Link]) -> f64 {
    sum(chain.iter().map(|link| link.seconds))
}

/// The seconds of a call in which no command of it ran or waited for a slot: nvcc's dry runs, the plan, and
/// the end. `None` if nvcc made it.
pub fn own_seconds(call: &Call) -> Option<f64> {
    if call.reason.is_some() {
        return None;
    }
    let mut commands: Vec<&Command> = call.commands.iter().collect();
    commands.sort_by(|one, other| one.asked.total_cmp(&other.asked));
    let (mut own, mut covered) = (0.0, call.begin);
    for command in commands {
        own += (command.asked - covered).max(0.0);
        covered = covered.max(command.end);
    }
    Some(own + (call.end - covered).max(0.0))
}

#[cfg(test)]
mod tests {
    use super::*;

    /// When a command asked for a slot, began and ended, and what it needed.
    type Row<'a> = (f64, f64, f64, &'a [usize]);

    fn call(commands: &[Row<'_>]) -> Call {
        let command = |&(asked, begin, end, needs): &Row<'_>| Command {
            kind: "x".into(),
            asked,
            begin,
            end,
            status: 0,
            hit: None,
            needs: Some(needs.to_vec()),
            remote: None,
        };
        Call {
            begin: 0.0,
            end: 10.0,
            status: 0,
            reason: None,
            compiles: true,
            commands: commands.iter().map(command).collect(),
            counted: None,
            words: vec![],
        }
    }

    #[test]
    fn the_longest_chain_follows_needs() {
        let made = call(&[
            (1.0, 1.0, 2.0, &[]),
            (1.0, 1.0, 4.0, &[]),
            (2.0, 2.0, 6.0, &[0]),
            (6.0, 6.0, 7.0, &[1, 2]),
        ]);
        let chain = longest_chain(&made).unwrap();
        assert_eq!((numbers(&chain), seconds_of(&chain)), (vec![0, 2, 3], 6.0));
        assert_eq!(longest_chain(&call(&[])), Some(vec![]));
        let mut unknown = made;
        unknown.commands[1].needs = None;
        assert_eq!(longest_chain(&unknown), None);
    }

    fn numbers(chain: &[Link]) -> Vec<usize> {
        chain.iter().map(|link| link.command).collect()
    }

    #[test]
    fn only_the_rest_of_a_command_that_began_early_counts() {
        let cases: [(&[Row<'_>], &[usize], f64); 5] = [
            (&[(1.0, 1.0, 4.0, &[]), (1.0, 1.0, 2.0, &[]), (2.0, 2.0, 6.0, &[0, 1])], &[1, 2], 5.0),
            (&[(1.0, 1.0, 4.0, &[]), (2.0, 2.0, 7.0, &[0])], &[0, 1], 6.0),
            (&[(1.0, 1.0, 5.0, &[]), (2.0, 2.0, 4.0, &[0]), (5.0, 5.0, 6.0, &[1])], &[0, 1, 2], 5.0),
            (&[(1.0, 1.0, 5.0, &[]), (2.0, 2.0, 4.0, &[0]), (4.0, 4.0, 6.0, &[1])], &[0, 1, 2], 5.0),
            (&[(1.0, 1.0, 1.5, &[]), (1.0, 1.0, 9.0, &[0])], &[0, 1], 8.0),
        ];
        for (commands, wanted, seconds) in cases {
            let chain = longest_chain(&call(commands)).unwrap();
            assert_eq!((numbers(&chain), seconds_of(&chain)), (wanted.to_vec(), seconds), "{commands:?}");
        }
    }

    #[test]
    fn needs_of_a_bad_log_do_no_harm() {
        let chain = longest_chain(&call(&[(0.0, 0.0, 1.0, &[0, 1, 99]), (0.0, 0.0, 2.0, &[1])])).unwrap();
        assert_eq!(chain, [Link { command: 1, seconds: 2.0 }]);
    }

    #[test]
    fn zigrunk_takes_what_no_command_does() {
        assert_eq!(
            own_seconds(&call(&[(1.0, 2.0, 4.0, &[]), (3.0, 3.0, 6.0, &[]), (7.0, 7.0, 9.5, &[])])),
            Some(1.0 + 1.0 + 0.5)
        );
        assert_eq!(own_seconds(&call(&[])), Some(10.0));
        assert_eq!(own_seconds(&Call { reason: Some("it links".into()), ..call(&[]) }), None);
    }
}

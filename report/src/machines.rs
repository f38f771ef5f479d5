//! The machines and servers of a log's commands.
use crate::log::{Log, number};
use std::collections::BTreeMap;
use std::fmt::{self, Write};

/// How many bytes a megabyte has.
const MEGABYTE: f64 = 1e6;

/// What commands did on a machine, by a server.
#[derive(Clone, Copy, PartialEq, Debug, Default)]
pub struct Work {
    /// How many ran.
    pub ran: usize,
    /// How long these ran, with what they waited for servers, in seconds.
    pub seconds: f64,
    /// How many had run there before, so that the server had what they make.
    pub found: usize,
    /// How many bytes of their contents went to the server, and came from there.
    pub sent: u64,
    pub received: u64,
}

/// The work of each machine by each server: first their names. `-` is one that the log doesn't say.
pub fn machines(log: &Log) -> BTreeMap<(&str, &str), Work> {
    let mut machines: BTreeMap<(&str, &str), Work> = BTreeMap::new();
    for (command, _) in log.commands() {
        let Some(remote) = &command.remote else { continue };
        let work = machines.entry((remote.machine.as_str(), remote.server.as_str())).or_default();
        if remote.way == "found" {
            work.found += 1;
        } else {
            work.ran += 1;
            work.seconds += command.seconds();
        }
        work.sent += remote.sent;
        work.received += remote.received;
    }
    machines
}

/// A number of bytes in megabytes.
pub fn megabytes(bytes: u64) -> String {
    format!("{:.1}", number(usize::try_from(bytes).unwrap_or(usize::MAX)) / MEGABYTE)
}

/// Adds a line for each machine to a summary, if commands went by servers.
pub fn write(text: &mut String, log: &Log) -> fmt::Result {
    let machines = machines(log);
    if machines.is_empty() {
        return Ok(());
    }
    writeln!(text, "\nmachines of commands by servers:")?;
    for ((machine, server), work) in machines {
        let (sent, received) = (megabytes(work.sent), megabytes(work.received));
        writeln!(
            text,
            "  {:6}  {:9.2} s  found {:6}  sent {sent:>7} MB  received {received:>7} MB  {machine} by {server}",
            work.ran, work.seconds, work.found
        )?;
    }
    Ok(())
}

#[cfg(test)]
mod tests {
    use super::*;
    use crate::page::page;
    use crate::small::small;
    use crate::summary::summary;

    /// A call by servers; the last command ran here, since it goes to none.
    const CALL: &str = r#"{"begin":1,"end":9,"status":0,"words":["nvcc"],"commands":[
{"kind":"cicc","asked":1,"begin":1,"end":3,"status":0,"remote":{"way":"ran","server":"grpc://a:1","machine":"n1","sent":2500000,"received":100000,"reason":""}},
{"kind":"cicc","asked":1,"begin":1,"end":2,"status":0,"remote":{"way":"found","server":"grpc://a:1","machine":"n1","sent":0,"received":50000,"reason":""}},
{"kind":"cicc","asked":1,"begin":2,"end":4.5,"status":0,"remote":{"way":"kept","server":"grpc://b:1","machine":"<me>","sent":1,"received":0,"reason":""}},
{"kind":"cicc","asked":1,"begin":2,"end":3,"status":0,"remote":{"way":"found","server":"grpc://b:1","sent":0,"received":1,"reason":""}},
{"kind":"gcc -E","asked":1,"begin":1,"end":2,"status":0}]}"#;

    fn log() -> Log {
        let mut log = Log::default();
        log.add(CALL.replace('\n', "").as_bytes());
        log
    }

    #[test]
    fn each_machine_has_its_work_by_each_server() {
        let log = log();
        let work = |ran, seconds, found, sent, received| Work { ran, seconds, found, sent, received };
        let wanted = [
            (("-", "grpc://b:1"), work(0, 0.0, 1, 0, 1)),
            (("<me>", "grpc://b:1"), work(1, 2.5, 0, 1, 0)),
            (("n1", "grpc://a:1"), work(1, 2.0, 1, 2_500_000, 150_000)),
        ];
        assert_eq!(machines(&log).into_iter().collect::<Vec<_>>(), wanted);
        assert!(machines(&small()).is_empty());
    }

    #[test]
    fn summary_and_page_have_a_table_of_machines() {
        let line =
            "       1       2.00 s  found      1  sent     2.5 MB  received     0.1 MB  n1 by grpc://a:1\n";
        assert!(summary(&log()).contains(line), "{}", summary(&log()));
        let row = "<tr><td><code>&lt;me&gt;</code></td><td><code>grpc://b:1</code></td>";
        assert!(page(&log()).contains(row), "{}", page(&log()));
        assert!(!summary(&small()).contains("machines") && !page(&small()).contains("Machines"));
    }
}

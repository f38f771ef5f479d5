//! How many processors this process may use at once. std's `available_parallelism` knows that too, but never
//! ends if a signal interrupts each of its reads.
use crate::streams::content_of;
use crate::system;
use std::path::Path;
use std::sync::OnceLock;

/// How many processors this process may use, by its affinity and by the quota of its control groups.
pub fn processors() -> usize {
    static COUNT: OnceLock<usize> = OnceLock::new();
    *COUNT.get_or_init(|| least_quota(Path::new("/")).unwrap_or(usize::MAX).min(system::processors()))
}

/// The least quota, in whole processors, of the groups that /proc/self/cgroup names and of those above them.
/// `None` if there is none. Everything is looked up below this root.
fn least_quota(root: &Path) -> Option<usize> {
    text_of(&root.join("proc/self/cgroup"))?.lines().filter_map(|line| quota_of(root, line)).min()
}

/// The least quota of a group and those above it, of a line such as `4:cpu,cpuacct:/a/b`, or `0::/a/b` for
/// the second version. A container may see its group as the root, under a name from outside: then the folder
/// that has the name is missing.
fn quota_of(root: &Path, line: &str) -> Option<usize> {
    let (controllers, group) = line.split_once(':')?.1.split_once(':')?;
    let top = match controllers {
        "" => root.join("sys/fs/cgroup"),
        _ if controllers.split(',').any(|name| name == "cpu") => root.join("sys/fs/cgroup/cpu"),
        _ => return None,
    };
    let folder = top.join(group.trim_start_matches('/'));
    folder.ancestors().take_while(|place| place.starts_with(&top)).filter_map(quota_in).min()
}

/// The quota in the folder of a group. A part of a processor counts as one.
fn quota_in(folder: &Path) -> Option<usize> {
    let read = |name: &str| text_of(&folder.join(name));
    let both = read("cpu.max").or_else(|| Some(read("cpu.cfs_quota_us")? + &read("cpu.cfs_period_us")?))?;
    // (without a quota, the first word is "max" or -1, so it is no number here)
    let mut numbers = both.split_whitespace().map(|word| word.parse::<usize>().ok());
    let (time, period) = (numbers.next()??, numbers.next()??);
    Some(time.checked_div(period)?.max(1))
}

fn text_of(path: &Path) -> Option<String> {
    String::from_utf8(content_of(path).ok()?).ok()
}

#[cfg(test)]
mod tests {
    use super::*;
    use crate::test_folder::TestFolder;
    use std::fs;

    /// What is found if /proc/self/cgroup has this text, and these files are below /sys/fs/cgroup.
    fn found(groups: &str, files: &[(&str, &str)]) -> Option<usize> {
        let root = TestFolder::new();
        let all = files.iter().map(|(name, text)| (format!("sys/fs/cgroup/{name}"), *text));
        for (name, text) in all.chain([("proc/self/cgroup".into(), groups)]) {
            let path = root.join(name);
            fs::create_dir_all(path.parent().unwrap()).unwrap();
            fs::write(path, text).unwrap();
        }
        least_quota(&root)
    }

    #[test]
    fn the_least_quota_of_all_groups_counts() {
        let max = |text| {
            found(
                "0::/a/b\n",
                &[("a/b/cpu.max", text), ("a/cpu.max", "800000 100000\n"), ("cpu.max", "max 100000\n")],
            )
        };
        let cases = [
            ("300000 100000\n", 3),
            ("max 100000\n", 8),
            ("900000 100000\n", 8),
            ("199999 100000\n", 1),
            ("5000 100000\n", 1),
            ("1 0\n", 8),
            ("", 8),
        ];
        assert_eq!(cases.map(|(text, _)| max(text)), cases.map(|(_, wanted)| Some(wanted)));
        assert_eq!(found("0::/a\n", &[("cpu.max", "max 100000\n")]), None);
    }

    #[test]
    fn groups_of_both_versions_are_read() {
        let first = [
            ("cpu/a/cpu.cfs_quota_us", "200000\n"),
            ("cpu/a/cpu.cfs_period_us", "100000\n"),
            ("cpu/cpu.cfs_quota_us", "-1\n"),
        ];
        for line in ["4:cpu:/a", "4:cpu,cpuacct:/a", "4:cpuacct,cpu:/a/missing", "5:cpuset:/\n4:cpu:/a\n0::/"]
        {
            assert_eq!(found(line, &first), Some(2), "{line}");
        }
        for line in ["4:cpu:/", "4:cpuacct:/a", "0::/a", "4:cpu", ""] {
            assert_eq!(found(line, &first), None, "{line}");
        }
        let inside = [("cpu/cpu.cfs_quota_us", "400000\n"), ("cpu/cpu.cfs_period_us", "100000\n")];
        assert_eq!(found("4:cpu:/docker/0123\n", &inside), Some(4), "a container's name from outside");
        assert_eq!(found("4:cpu:/a\n", &inside[..1]), None, "without a period");
        assert_eq!(least_quota(Path::new("/missing")), None);
    }

    #[test]
    fn it_is_what_std_finds() {
        assert_eq!(processors(), std::thread::available_parallelism().unwrap().get());
    }
}

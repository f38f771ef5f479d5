//! Slots: how many commands of all the user's calls on this machine run at once.
//!
//! A slot is a file that a call locks, so the kernel frees it if the call dies. A call that waits has a
//! ticket, a named pipe beside the slots with the call's rank in its name. Calls without a slot come first,
//! and then those that want a further one, the older ones first among either: a call takes a slot only if
//! none of a lower rank waits for it. So calls end one after the other, and the last ones side by side. Who
//! gives a slot back wakes the first call that waits for it, by a byte in its ticket. Holders and waiters
//! touch their files each second. What wasn't touched for some seconds belongs to a call that is stopped or
//! frozen, and doesn't count.
use crate::folder::{self, Folder};
use crate::system::{self, Access};
use std::cell::{Cell, RefCell};
use std::fs::{self, File};
use std::io;
use std::os::fd::{AsFd, BorrowedFd, OwnedFd};
use std::path::{Path, PathBuf};
use std::time::{Duration, SystemTime};

/// How long a call that doesn't touch its files counts: five beats, since a busy machine may delay one or two
/// of a call that runs.
const STALE: Duration = Duration::from_secs(5);
/// How much later than its folder's last change a list of those who wait has to be read to be kept. File
/// systems note times in ticks of up to ten milliseconds, so a further change within one would not show.
const TICK: Duration = Duration::from_millis(50);
/// How often holders and waiters touch their files, in milliseconds, because a stopped call keeps its locks
/// and only its silence tells it from one that runs.
pub const BEAT: i32 = 1000;

/// A slot that a call has.
#[derive(Debug)]
pub struct Slot {
    number: usize,
    file: File,
}

impl Slot {
    /// Its file. The lock on it is the slot.
    pub fn file(&self) -> BorrowedFd<'_> {
        self.file.as_fd()
    }
}

/// Why a slot can't be had.
#[derive(Clone, Copy, PartialEq, Eq, Debug)]
enum Taken {
    /// A call has it that runs, or its file can't be locked.
    Busy,
    /// A call has it that is stopped or frozen.
    Stale,
}

/// What the rank of a call that has a slot has more than its age.
const FURTHER: u64 = 1 << 63;

/// A call that waits: its rank, which is its age unless it has a slot, its process, and how many slots it
/// shares.
#[derive(Clone, Copy, PartialEq, Eq, PartialOrd, Ord, Debug)]
struct Waiter {
    rank: u64,
    process: i32,
    count: usize,
}

impl Waiter {
    fn name(self) -> String {
        format!("wait-{:020}-{}-{}", self.rank, self.process, self.count)
    }

    fn named(name: &str) -> Option<Waiter> {
        let mut parts = name.strip_prefix("wait-")?.split('-');
        let (rank, process, count) =
            (parts.next()?.parse().ok()?, parts.next()?.parse().ok()?, parts.next()?.parse().ok()?);
        parts.next().is_none().then_some(Waiter { rank, process, count })
    }

    /// Whether it's the same call, whatever its rank.
    fn is(self, other: Waiter) -> bool {
        (self.rank % FURTHER, self.process) == (other.rank % FURTHER, other.process)
    }
}

/// What a call that waits reads.
#[derive(Debug)]
struct Ticket {
    file: OwnedFd,
    name: String,
}

/// The slots of a machine, for one call.
#[derive(Debug)]
pub struct Slots {
    folder: Folder,
    own: Waiter,
    ticket: Option<Ticket>,
    /// Whether the disk has stopped to take locks.
    is_without_locks: Cell<bool>,
    /// The calls that waited when the folder had last changed, and when that was.
    known: RefCell<Option<(SystemTime, Vec<Waiter>)>>,
}

/// The name of the folder of a user's slots.
fn folder_name() -> String {
    format!("zigrunk-slots-{}", system::user())
}

/// Whether a file was touched within the last seconds.
fn is_fresh(file: &File) -> bool {
    let age = file
        .metadata()
        .and_then(|it| it.modified())
        .ok()
        .and_then(|time| SystemTime::now().duration_since(time).ok());
    age.is_none_or(|age| age < STALE)
}

impl Slots {
    /// So many slots, for a call of this age, in the first of these folders that takes locks. `None` if none
    /// does: if that is since somebody else has taken the names there, the user is told.
    pub fn open(count: usize, age: u64, places: &[PathBuf]) -> Option<Slots> {
        let own = Waiter { rank: age % FURTHER, process: system::process(), count };
        let slots = places.iter().find_map(|place| Slots::open_in(place, own).ok());
        if slots.is_none() {
            for place in places {
                folder::tell_taken(
                    &place.join(folder_name()),
                    "slots",
                    "nothing limits how many commands run at once",
                    places,
                );
            }
        }
        slots
    }

    fn open_in(place: &Path, own: Waiter) -> io::Result<Slots> {
        let folder = Folder::private(place, &folder_name())?;
        let first = system::open_below(folder.as_fd(), "1", Access::KEPT)?;
        system::try_lock(first.as_fd())?;
        Ok(Slots { folder, own, ticket: None, is_without_locks: Cell::new(false), known: RefCell::new(None) })
    }

    /// Says whether this call has a slot, so that calls without one come first.
    pub fn note_slot(&mut self, has_one: bool) {
        self.own.rank = self.own.rank % FURTHER + if has_one { FURTHER } else { 0 };
    }

    /// The calls that wait, the first ones first.
    fn waiters(&self) -> Vec<Waiter> {
        let changed = self.folder.changed();
        if let Some((_, waiters)) = self.known.borrow().as_ref().filter(|(time, _)| Some(*time) == changed) {
            return waiters.clone();
        }
        let entries = fs::read_dir(&self.folder.path).into_iter().flatten().flatten();
        let mut waiters: Vec<Waiter> =
            entries.filter_map(|entry| Waiter::named(entry.file_name().to_str()?)).collect();
        waiters.sort_unstable();
        let settled = changed.filter(|time| time.elapsed().is_ok_and(|age| age > TICK));
        *self.known.borrow_mut() = settled.map(|time| (time, waiters.clone()));
        waiters
    }

    /// Whether a call waits, and can. The ticket of one that is dead goes.
    fn is_alive(&self, waiter: Waiter) -> bool {
        let Ok(file) = system::open_below(self.folder.as_fd(), &waiter.name(), Access::PIPE) else {
            return false;
        };
        if system::try_lock(file.as_fd()).unwrap_or(false) {
            let _ = system::remove_below(self.folder.as_fd(), &waiter.name());
            return false;
        }
        is_fresh(&file)
    }

    /// The greatest number of a slot that a call waits for which comes before this one.
    fn taken_by_others(&self) -> usize {
        let mut most = 0;
        for waiter in self.waiters().into_iter().take_while(|&waiter| waiter < self.own) {
            if waiter.count > most && !waiter.is(self.own) && self.is_alive(waiter) {
                most = waiter.count;
            }
        }
        most
    }

    /// A free slot, if there is one that no call waits for which comes before this one. Calls with more slots
    /// leave the first ones to others.
    pub fn try_take(&self) -> Option<Slot> {
        let left_to_others = self.taken_by_others();
        let mut stale = 0;
        for number in (left_to_others + 1..=self.own.count).rev() {
            match self.lock(number) {
                Ok(slot) => return Some(slot),
                Err(taken) => stale += usize::from(taken == Taken::Stale),
            }
        }
        if left_to_others > 0 {
            return None;
        }
        (self.own.count + 1..=self.own.count + stale).find_map(|number| self.lock(number).ok())
    }

    /// Whether nobody can have a slot any more: the folder is gone, or takes no file or no lock.
    pub fn are_lost(&self) -> bool {
        self.is_without_locks.get()
            || !self.folder.is_there()
            || system::open_below(self.folder.as_fd(), "1", Access::KEPT).is_err()
    }

    /// The slot of a number, or why it can't be had.
    fn lock(&self, number: usize) -> Result<Slot, Taken> {
        let opened = system::open_below(self.folder.as_fd(), &number.to_string(), Access::KEPT);
        let file = opened.map_err(|_| Taken::Busy)?;
        match system::try_lock(file.as_fd()) {
            Ok(true) => {
                system::touch(file.as_fd());
                Ok(Slot { number, file })
            }
            Ok(false) if !is_fresh(&file) => Err(Taken::Stale),
            Ok(false) => Err(Taken::Busy),
            Err(_) => {
                self.is_without_locks.set(true);
                Err(Taken::Busy)
            }
        }
    }

    /// Whether a call waits for a slot that this call has, and comes before it.
    pub fn is_wanted(&self, slot: &Slot) -> bool {
        slot.number > self.own.count || self.taken_by_others() >= slot.number
    }

    /// Whether a slot is free and no other call waits for one.
    pub fn are_plenty(&self) -> bool {
        let is_wanted =
            self.waiters().into_iter().any(|waiter| !waiter.is(self.own) && self.is_alive(waiter));
        let free = if is_wanted { None } else { self.try_take() };
        free.map(|slot| self.give_back(slot)).is_some()
    }

    /// Gives a slot back, and wakes the first call that waits for it.
    pub fn give_back(&self, slot: Slot) {
        let number = slot.number;
        drop(slot);
        for waiter in self.waiters() {
            let is_other = !waiter.is(self.own) && waiter.count >= number;
            if is_other && self.is_alive(waiter) && self.wake(waiter) {
                return;
            }
        }
    }

    fn wake(&self, waiter: Waiter) -> bool {
        let pipe = system::open_below(self.folder.as_fd(), &waiter.name(), Access::PIPE_TO_WRITE);
        pipe.is_ok_and(|pipe| system::write_byte(pipe.as_fd(), b'+'))
    }

    /// Begins to wait, if this call doesn't yet at its rank. Says whether it has just begun: then a slot may
    /// be free by now.
    pub fn begin_to_wait(&mut self) -> bool {
        let name = self.own.name();
        if self.ticket.as_ref().is_some_and(|ticket| ticket.name == name) {
            return false;
        }
        self.end_to_wait();
        for _ in 0..3 {
            let made = system::make_pipe(self.folder.as_fd(), &name);
            let opened = system::open_below(self.folder.as_fd(), &name, Access::PIPE);
            let (Ok(()), Ok(file)) = (made, opened) else { return false };
            // It looks again, since another call may take it for that of a dead one before it is locked.
            if system::try_lock(file.as_fd()).unwrap_or(false) && self.folder.names(&name, &file) {
                self.ticket = Some(Ticket { file: file.into(), name });
                return true;
            }
        }
        false
    }

    /// Doesn't wait any longer, and wakes the next one, which may have waited for this call.
    pub fn end_to_wait(&mut self) {
        let Some(ticket) = self.ticket.take() else { return };
        let _ = system::remove_below(self.folder.as_fd(), &ticket.name);
        let next = self.waiters().into_iter().find(|&waiter| self.is_alive(waiter));
        if let Some(waiter) = next {
            self.wake(waiter);
        }
    }

    /// The file that can be read if a slot may be free.
    pub fn file(&self) -> Option<BorrowedFd<'_>> {
        self.ticket.as_ref().map(|ticket| ticket.file.as_fd())
    }

    /// Takes the bytes out of the ticket.
    pub fn awake(&self) {
        while self.ticket.as_ref().is_some_and(|ticket| system::read_byte(ticket.file.as_fd()).is_some()) {}
    }

    /// Says that this call runs, with these slots.
    pub fn beat<'a>(&self, slots: impl Iterator<Item = &'a Slot>) {
        slots.for_each(|slot| system::touch(slot.file.as_fd()));
        if let Some(ticket) = &self.ticket {
            system::touch(ticket.file.as_fd());
        }
    }
}

impl Drop for Slots {
    fn drop(&mut self) {
        self.end_to_wait();
    }
}

#[cfg(test)]
mod tests {
    use super::*;
    use crate::test_folder::TestFolder;

    /// Slots of several calls in a folder of a test, which goes with it.
    struct Room(TestFolder);

    impl Room {
        fn slots(&self, count: usize, age: u64) -> Slots {
            Slots::open(count, age, &[self.0.to_owned()]).unwrap()
        }
    }

    #[test]
    fn names_say_who_waits() {
        let waiter = Waiter { rank: 12, process: 34, count: 5 };
        assert_eq!(Waiter::named(&waiter.name()), Some(waiter));
        for name in ["wait-1-2", "wait-1-2-3-4", "wait-a-2-3", "1", "wait-"] {
            assert_eq!(Waiter::named(name), None, "{name}");
        }
        assert!(
            Waiter { rank: 9, process: 9, count: 1 }.name()
                < Waiter { rank: 10, process: 1, count: 1 }.name()
        );
    }

    #[test]
    fn the_last_slot_goes_first_and_no_more_than_all() {
        let room = Room(TestFolder::new());
        let (one, other) = (room.slots(2, 1), room.slots(2, 2));
        let first = one.try_take().unwrap();
        assert_eq!(first.number, 2);
        let second = other.try_take().unwrap();
        assert_eq!(second.number, 1);
        assert!(one.try_take().is_none() && other.try_take().is_none());
        one.give_back(first);
        assert_eq!(other.try_take().unwrap().number, 2);
    }

    #[test]
    fn slots_are_plenty_if_one_is_free_and_nobody_waits() {
        let room = Room(TestFolder::new());
        let (one, mut other) = (room.slots(2, 1), room.slots(2, 2));
        let first = one.try_take().unwrap();
        assert!(one.are_plenty() && one.are_plenty(), "it takes none");
        let second = other.try_take().unwrap();
        assert!(!one.are_plenty());
        other.give_back(second);
        assert!(other.begin_to_wait());
        assert!(!one.are_plenty(), "another call waits");
        other.end_to_wait();
        assert!(one.are_plenty());
        one.give_back(first);
    }

    #[test]
    fn older_calls_come_first() {
        let room = Room(TestFolder::new());
        let (mut old, mut young) = (room.slots(1, 1), room.slots(1, 2));
        let holder = room.slots(1, 3);
        let slot = holder.try_take().unwrap();
        assert!(young.begin_to_wait() && old.begin_to_wait() && !old.begin_to_wait());
        assert!(holder.is_wanted(&slot));
        holder.give_back(slot);
        assert_eq!(
            (
                old.file().map(|file| system::wait_for(&[file], 0)),
                young.file().map(|file| system::wait_for(&[file], 0))
            ),
            (Some(vec![true]), Some(vec![false]))
        );
        assert!(young.try_take().is_none(), "an older one waits");
        let slot = old.try_take().unwrap();
        old.end_to_wait();
        assert_eq!(
            young.file().map(|file| system::wait_for(&[file], 0)),
            Some(vec![true]),
            "the next one looks again"
        );
        assert!(young.try_take().is_none(), "it is taken");
        old.give_back(slot);
        assert!(young.try_take().is_some());
    }

    #[test]
    fn calls_without_a_slot_come_before_those_that_want_another() {
        let room = Room(TestFolder::new());
        let [mut old, mut young] = [room.slots(2, 1), room.slots(2, 2)];
        let [first, second] = [old.try_take().unwrap(), old.try_take().unwrap()];
        assert!(young.begin_to_wait());
        assert!(!old.is_wanted(&first), "it has no other");
        old.note_slot(true);
        assert!(old.is_wanted(&first) && old.is_wanted(&second), "it has another");
        assert!(old.begin_to_wait() && !old.begin_to_wait());
        old.give_back(first);
        assert_eq!([is_awake(&old), is_awake(&young)], [false, true]);
        assert!(old.try_take().is_none(), "a call without a slot waits");
        let third = young.try_take().unwrap();
        young.end_to_wait();
        old.awake();
        old.note_slot(false);
        old.give_back(second);
        assert_eq!(
            old.try_take().map(|slot| slot.number),
            Some(1),
            "its ticket of the other rank is its own"
        );
        young.note_slot(true);
        assert!(old.begin_to_wait(), "at its new rank");
        assert_eq!(old.waiters(), [old.own]);
        assert!(young.is_wanted(&third));
        young.note_slot(false);
        assert!(young.is_wanted(&third), "the other one is older, and has none");
    }

    #[test]
    fn a_call_with_fewer_slots_holds_up_no_others() {
        let room = Room(TestFolder::new());
        let (mut few, many) = (room.slots(1, 1), room.slots(2, 2));
        let first = room.slots(1, 3).try_take().unwrap();
        assert!(few.begin_to_wait());
        assert_eq!(many.try_take().unwrap().number, 2);
        drop(first);
        assert!(
            many.try_take().is_none_or(|slot| slot.number == 2),
            "the first slot is left to the older one"
        );
    }

    #[test]
    fn what_is_not_touched_does_not_count() {
        let room = Room(TestFolder::new());
        let (mut stopped, other) = (room.slots(1, 1), room.slots(1, 2));
        let slot = stopped.try_take().unwrap();
        assert!(stopped.begin_to_wait());
        assert!(other.try_take().is_none());
        let long_ago = fs::FileTimes::new().set_modified(SystemTime::now() - 2 * STALE);
        slot.file.set_times(long_ago).unwrap();
        let ticket = File::from(stopped.ticket.as_ref().unwrap().file.try_clone().unwrap());
        ticket.set_times(long_ago).unwrap();
        assert_eq!(other.try_take().unwrap().number, 2);
        stopped.beat([&slot].into_iter());
        assert!(other.try_take().is_none());
    }

    /// Whether a call's ticket says that it may look again.
    fn is_awake(slots: &Slots) -> bool {
        slots.file().is_some_and(|file| system::wait_for(&[file], 0) == [true])
    }

    fn age(file: &File) {
        file.set_times(fs::FileTimes::new().set_modified(SystemTime::now() - 2 * STALE)).unwrap();
    }

    #[test]
    fn the_first_folder_that_takes_locks_has_the_slots() {
        let room = Room(TestFolder::new());
        let place = room.0.to_owned();
        let slots = Slots::open(1, 1, &["/missing".into(), place.clone(), std::env::temp_dir()]).unwrap();
        assert_eq!(slots.folder.path, place.join(format!("zigrunk-slots-{}", system::user())));
        assert!(Slots::open(1, 1, &["/missing".into()]).is_none() && Slots::open(1, 1, &[]).is_none());
    }

    #[test]
    fn a_folder_that_is_taken_has_no_slots_and_that_is_said() {
        use std::os::unix::fs::PermissionsExt;
        let [taken, free] = [TestFolder::new(), TestFolder::new()];
        let said = |place: &TestFolder| {
            place.join(format!("zigrunk-{}", system::user())).join("said-slots").exists()
        };
        let folder = taken.join(folder_name());
        fs::create_dir(&folder).unwrap();
        fs::set_permissions(&folder, fs::Permissions::from_mode(0o777)).unwrap();
        assert!(
            Slots::open(1, 1, &[taken.to_owned(), free.to_owned()]).is_some() && !said(&taken),
            "another place has them"
        );
        assert!(Slots::open(1, 1, &[taken.to_owned()]).is_none() && said(&taken));
    }

    #[test]
    fn an_older_call_keeps_only_the_slots_that_it_shares() {
        let room = Room(TestFolder::new());
        let (mut one, mut two, mut last) = (room.slots(1, 1), room.slots(2, 2), room.slots(4, 9));
        let young = room.slots(4, 3);
        assert!(one.begin_to_wait() && two.begin_to_wait() && last.begin_to_wait());
        assert_eq!(
            [one.taken_by_others(), two.taken_by_others(), young.taken_by_others(), last.taken_by_others()],
            [0, 1, 2, 2]
        );
        let taken: Vec<Slot> = std::iter::from_fn(|| young.try_take()).collect();
        assert_eq!(taken.iter().map(|slot| slot.number).collect::<Vec<_>>(), [4, 3]);
        let of_number = |number| Slot { number, file: File::open("/").unwrap() };
        assert_eq!(
            [1, 2, 3, 4, 5].map(|number| young.is_wanted(&of_number(number))),
            [true, true, false, false, true]
        );
        two.end_to_wait();
        assert_eq!(young.try_take().map(|slot| slot.number), Some(2), "the first is left");
    }

    #[test]
    fn as_many_more_slots_are_taken_as_are_stale() {
        let room = Room(TestFolder::new());
        let (stopped, other) = (room.slots(3, 1), room.slots(3, 2));
        let slots: Vec<Slot> = std::iter::from_fn(|| stopped.try_take()).collect();
        slots[..2].iter().for_each(|slot| age(&slot.file));
        let more: Vec<Slot> = std::iter::from_fn(|| other.try_take()).collect();
        assert_eq!(more.iter().map(|slot| slot.number).collect::<Vec<_>>(), [4, 5]);
        assert!(
            more.iter().all(|slot| other.is_wanted(slot)) && !other.is_wanted(&slots[0]),
            "they go back soon"
        );
        drop(more);
        let mut oldest = room.slots(1, 0);
        assert!(oldest.begin_to_wait() && other.try_take().is_none(), "an older call comes first");
    }

    #[test]
    fn the_oldest_call_that_can_use_a_slot_is_told_of_it() {
        let room = Room(TestFolder::new());
        let mut waiting = [(1, 1), (2, 2), (2, 3), (2, 4)].map(|(count, age)| room.slots(count, age));
        let slot = waiting[3].try_take().unwrap();
        assert!(waiting.iter_mut().all(Slots::begin_to_wait));
        age(&File::from(waiting[1].ticket.as_ref().unwrap().file.try_clone().unwrap()));
        let own = room.slots(2, 0);
        assert_eq!(slot.number, 2);
        own.give_back(slot);
        assert_eq!(
            waiting.each_ref().map(is_awake),
            [false, false, true, false],
            "one has too few slots, one is stopped"
        );
        waiting[2].awake();
        assert!(!is_awake(&waiting[2]));
        let slot = waiting[0].try_take().unwrap();
        waiting[0].give_back(slot);
        assert_eq!(waiting.each_ref().map(is_awake), [false, false, true, false], "it doesn't tell itself");
    }

    #[test]
    fn a_call_that_ends_to_wait_has_no_ticket() {
        let room = Room(TestFolder::new());
        let (mut slots, mut next) = (room.slots(1, 1), room.slots(1, 2));
        let names = |slots: &Slots| slots.waiters().iter().map(|waiter| waiter.rank).collect::<Vec<_>>();
        assert!(next.begin_to_wait() && slots.begin_to_wait());
        assert_eq!(names(&slots), [1, 2], "oldest first");
        slots.end_to_wait();
        assert_eq!((names(&slots), slots.file().is_some(), is_awake(&next)), (vec![2], false, true));
        next.awake();
        slots.end_to_wait();
        assert!(!is_awake(&next), "once is enough");
        drop(next);
        assert_eq!(names(&slots), Vec::<u64>::new());
    }

    #[test]
    fn those_who_wait_are_looked_up_when_the_folder_changes() {
        let room = Room(TestFolder::new());
        let (slots, mut waiting) = (room.slots(1, 1), room.slots(1, 2));
        let folder = File::open(&slots.folder.path).unwrap();
        assert_eq!((slots.waiters(), slots.known.borrow().is_some()), (vec![], false), "it has just changed");
        age(&folder);
        let time = slots.folder.changed();
        assert_eq!((slots.waiters(), slots.known.borrow().is_some()), (vec![], true));
        assert!(waiting.begin_to_wait());
        assert_eq!(slots.waiters(), [waiting.own]);
        folder.set_times(fs::FileTimes::new().set_modified(time.unwrap())).unwrap();
        assert_eq!(slots.waiters(), [waiting.own], "it isn't kept, since it was read right after a change");
        waiting.end_to_wait();
        folder.set_times(fs::FileTimes::new().set_modified(time.unwrap())).unwrap();
        assert_eq!(slots.waiters(), [waiting.own], "nothing has changed by the folder's time");
        drop(waiting);
        assert_eq!(slots.folder.changed(), time);
    }

    #[test]
    fn slots_are_lost_with_their_folder() {
        let room = Room(TestFolder::new());
        let slots = room.slots(1, 1);
        assert!(!slots.are_lost());
        let first = slots.folder.path.join("1");
        fs::remove_file(&first).unwrap();
        fs::create_dir(&first).unwrap();
        assert!(slots.are_lost(), "no file can be made");
        fs::remove_dir(&first).unwrap();
        assert!(!slots.are_lost());
        slots.is_without_locks.set(true);
        assert!(slots.are_lost());
        slots.is_without_locks.set(false);
        fs::rename(&slots.folder.path, slots.folder.path.with_extension("moved")).unwrap();
        assert!(slots.are_lost());
    }

    #[test]
    fn a_call_that_runs_touches_what_it_has() {
        let room = Room(TestFolder::new());
        let mut slots = room.slots(1, 1);
        let slot = slots.try_take().unwrap();
        assert!(slots.begin_to_wait());
        let ticket = File::from(slots.ticket.as_ref().unwrap().file.try_clone().unwrap());
        age(&slot.file);
        age(&ticket);
        assert!(!is_fresh(&slot.file) && !is_fresh(&ticket));
        slots.beat([&slot].into_iter());
        assert!(is_fresh(&slot.file) && is_fresh(&ticket));
        age(&slot.file);
        drop(slot);
        let slot = slots.try_take().unwrap();
        assert!(is_fresh(&slot.file), "taken now");
    }

    #[test]
    fn the_ticket_of_a_dead_call_goes() {
        let room = Room(TestFolder::new());
        let slots = room.slots(1, 2);
        let dead = Waiter { rank: 1, process: 1, count: 1 };
        system::make_pipe(slots.folder.as_fd(), &dead.name()).unwrap();
        assert_eq!(slots.waiters(), [dead]);
        assert!(slots.try_take().is_some());
        assert_eq!(slots.waiters(), []);
    }
}

//! What a call says: the texts of its commands, in nvcc's order, each as soon as nothing before it is
//! missing.
use crate::tasks;
use dependency_rules::without_warnings;
use machine::jobs::Ended;
use machine::task::{Done, Task};
use rattle_std::alloc::Global;
use schedules::{CommandState, PlanStatus, told};
use std::mem;

/// Takes a text for a standard stream, and whether that is standard error.
pub type Say<'a> = dyn FnMut(bool, &[u8]) + 'a;

/// When texts are told, and which.
#[derive(Clone, Copy, PartialEq, Eq, Debug, Default)]
pub struct Habits {
    /// Whether nothing is told before the call's end, since nvcc may have to make the call again.
    pub holds_back: bool,
    /// Whether nvcc itself runs the call's commands side by side. Then it tells what each says, though one
    /// has failed, and ends with 255.
    pub has_threads: bool,
    /// How many commands nvcc then starts before one has ended. If one of these fails, it starts no more.
    pub first_wave: usize,
    /// Whether what makes the dependency file says what the preprocessors say too: nvcc then also
    /// preprocesses for the host.
    pub rule_speaks: bool,
}

/// The status of a failed call whose commands nvcc would have run side by side.
const STATUS_OF_THREADS: i32 = 255;

/// How a call has ended.
#[derive(Clone, Copy, PartialEq, Eq, Debug)]
pub struct End {
    /// The status of the first command that failed, or 0.
    pub status: i32,
    /// Whether no command said anything.
    pub is_silent: bool,
}

/// What is left of a text without the lines in which nvcc itself warns. If memory runs out, that is all of
/// it.
fn without_nvccs_warnings(text: &[u8]) -> Vec<u8> {
    without_warnings(Global, text).map_or_else(|_| text.to_vec(), |left| left.as_slice().to_vec())
}

/// What has become of a task, which is in the given state if it hasn't ended.
fn state_of(done: &Done, unended: CommandState) -> CommandState {
    match done {
        done if done.failed() => CommandState::Failed,
        done if done.has_ended() => CommandState::Succeeded,
        _ => unended,
    }
}

/// The voice of a call.
pub struct Voice<'a> {
    say: &'a mut Say<'a>,
    habits: Habits,
    /// Whether the texts of each task may be told while it runs. A cache may refuse a command, which then
    /// runs again.
    is_open: Vec<bool>,
    /// The task that makes the dependency file. If it fails, nvcc makes the call, so tasks before it aren't
    /// told before its end.
    rule: Option<usize>,
    /// What nvcc says of the line, if it isn't told yet.
    remarks: Vec<u8>,
    /// The tasks in the order in which they are told.
    order: Vec<usize>,
    /// The place there of the first task that isn't told to its end, and how much of its two texts is told.
    next: usize,
    told: [usize; 2],
    is_silent: bool,
    failed: Option<i32>,
    /// The place of the first task that isn't told, whatever comes of it.
    end: usize,
}

impl<'a> Voice<'a> {
    /// The voice of a call with these tasks, which are in nvcc's order.
    pub fn new(tasks: &[Task], habits: Habits, say: &'a mut Say<'a>) -> Voice<'a> {
        let is_open = tasks.iter().map(|task| !task.is_rule && task.without_launcher.is_none()).collect();
        let rule = tasks.iter().position(|task| task.is_rule);
        let (remarks, order) = (Vec::new(), (0..tasks.len()).collect());
        Voice {
            say,
            habits,
            is_open,
            rule,
            remarks,
            order,
            next: 0,
            told: [0; 2],
            is_silent: true,
            failed: None,
            end: tasks.len(),
        }
    }

    /// The same voice, which tells the tasks in another order. Nothing may be told before the call's end.
    #[must_use]
    pub fn in_order(self, order: Vec<usize>) -> Voice<'a> {
        Voice { order, ..self }
    }

    /// Tells first what nvcc says of the line.
    pub fn remark(&mut self, remarks: &[u8]) {
        self.remarks = remarks.to_vec();
        if !self.habits.holds_back {
            self.tell_remarks();
        }
    }

    fn tell_remarks(&mut self) {
        let remarks = mem::take(&mut self.remarks);
        if !remarks.is_empty() {
            (self.say)(true, &remarks);
        }
    }

    /// The task whose texts may be told while it runs.
    pub fn front(&self) -> Option<usize> {
        let is_before_rule = self.rule.is_some_and(|rule| self.next < rule);
        let is_open =
            !self.habits.holds_back && !self.is_over() && !is_before_rule && self.is_open[self.next];
        is_open.then_some(self.next)
    }

    /// Whether nothing more is told: all is, or a command has failed.
    fn is_over(&self) -> bool {
        self.next >= self.end
    }

    /// Notes that the next task has failed.
    fn fail(&mut self, status: i32) {
        self.failed = self.failed.or(Some(status));
        if !self.habits.has_threads {
            self.end = self.next + 1;
        } else if self.next < self.habits.first_wave {
            self.end = self.habits.first_wave;
        }
    }

    /// Tells what the task in front has said up to now: its output and its messages.
    pub fn hear(&mut self, number: usize, texts: [&[u8]; 2]) {
        if self.front() == Some(number) {
            self.tell_more(texts);
        }
    }

    /// Tells what of a task's texts isn't told yet.
    fn tell_more(&mut self, texts: [&[u8]; 2]) {
        for (stream, text) in texts.into_iter().enumerate() {
            let more = text.get(self.told[stream]..).unwrap_or_default();
            if !more.is_empty() {
                self.is_silent = false;
                self.told[stream] += more.len();
                (self.say)(stream == 1, more);
            }
        }
    }

    /// Tells what may be told, given what has become of the tasks.
    pub fn tell(&mut self, done: &[Done]) {
        if !self.habits.holds_back && !self.waits_for_rule(done) {
            self.tell_as_told(done, CommandState::NotStarted);
        }
    }

    /// Whether the dependency file has to be made first.
    fn waits_for_rule(&self, done: &[Done]) -> bool {
        let is_made = |rule: usize| done[rule].has_ended() && !done[rule].failed();
        self.rule.is_some_and(|rule| self.next <= rule && !is_made(rule))
    }

    /// Tells what the proved rule lets be told of tasks of which those that haven't ended count as in this
    /// state. Where nvcc goes on behind a failure, so does this.
    fn tell_as_told(&mut self, done: &[Done], unended: CommandState) {
        let states: Vec<CommandState> =
            self.order.iter().map(|&task| state_of(&done[task], unended)).collect();
        loop {
            let told = told(&states, self.next, self.end);
            while self.next < told.end {
                self.tell_next(done);
            }
            if self.is_over() || !matches!(told.status, PlanStatus::Failed) {
                return;
            }
        }
    }

    /// Tells the rest of the next task, if it ran.
    fn tell_next(&mut self, done: &[Done]) {
        let number = self.order[self.next];
        let is_told_by_rule = self.habits.rule_speaks
            && self.rule.is_some_and(|rule| number < rule && done[rule].ended.is_some());
        if let Some(ended) = done[number].ended.as_ref().filter(|_| !is_told_by_rule) {
            self.tell_end(number, ended);
        }
        (self.next, self.told) = (self.next + 1, [0; 2]);
    }

    fn tell_end(&mut self, number: usize, ended: &Ended) {
        let said = match self.rule {
            // Not again, since the dry run has printed what nvcc warns of.
            Some(rule) if rule == number && self.habits.rule_speaks => &without_nvccs_warnings(&ended.errors),
            Some(rule) if rule == number => &Vec::new(),
            _ => &ended.errors,
        };
        let errors = [said.as_slice(), tasks::words_of_death(ended.status).as_bytes()].concat();
        self.tell_more([&ended.out, &errors]);
        if !ended.status.succeeded() {
            self.fail(ended.status.code);
        }
    }

    /// Tells all that isn't told yet, up to the first command that failed. Says how the call has ended.
    pub fn end(mut self, done: &[Done]) -> End {
        self.tell_remarks();
        // What never ran has nothing to say.
        self.tell_as_told(done, CommandState::Succeeded);
        let failed =
            self.failed.map_or(0, |status| if self.habits.has_threads { STATUS_OF_THREADS } else { status });
        End { status: failed, is_silent: self.is_silent }
    }
}

#[cfg(test)]
mod tests {
    use super::*;
    use crate::system::Status;
    use std::fmt::Write;

    fn done(code: i32, out: &str, errors: &str) -> Done {
        let status = Status { code, signal: None, dumped: false };
        let ended = Ended { status, out: out.into(), errors: errors.into(), times: (1.0, 2.0) };
        Done { ended: Some(ended), ..Done::default() }
    }

    fn tasks(count: usize) -> Vec<Task> {
        vec![Task::default(); count]
    }

    fn rule() -> Task {
        Task { is_rule: true, ..Task::default() }
    }

    /// What a voice says step by step, as the tasks come to stand like this, and in the end.
    fn told(tasks: &[Task], habits: Habits, steps: &[&[Done]]) -> (Vec<String>, End) {
        let said = std::cell::RefCell::new(String::new());
        let mut say = |is_error: bool, text: &[u8]| {
            let _ = write!(
                said.borrow_mut(),
                "{}{} ",
                if is_error { '!' } else { '.' },
                String::from_utf8_lossy(text)
            );
        };
        let mut voice = Voice::new(tasks, habits, &mut say);
        let mut all = Vec::new();
        for done in steps {
            voice.tell(done);
            all.push(said.take());
        }
        let end = voice.end(steps.last().unwrap());
        all.push(said.take());
        (all, end)
    }

    fn ok(text: &str) -> Done {
        done(0, "", text)
    }

    #[test]
    fn texts_come_in_order_as_soon_as_none_before_is_missing() {
        let none = Done::default;
        let steps: [&[Done]; 3] =
            [&[none(), ok("b"), none()], &[ok("a"), ok("b"), none()], &[ok("a"), ok("b"), done(0, "c", "d")]];
        let (all, end) = told(&tasks(3), Habits::default(), &steps);
        assert_eq!(all, ["", "!a !b ", ".c !d ", ""]);
        assert_eq!(end, End { status: 0, is_silent: false });
        let (all, _) = told(&tasks(3), Habits { holds_back: true, ..Habits::default() }, &steps);
        assert_eq!(all, ["", "", "", "!a !b .c !d "]);
    }

    #[test]
    fn what_nvcc_says_of_the_line_comes_first() {
        for (holds_back, wanted) in [(false, ["!of the line ", "!a "]), (true, ["", "!of the line !a "])] {
            let said = std::cell::RefCell::new(String::new());
            let mut say = |is_error: bool, text: &[u8]| {
                let _ = write!(
                    said.borrow_mut(),
                    "{}{} ",
                    if is_error { '!' } else { '.' },
                    String::from_utf8_lossy(text)
                );
            };
            let mut voice =
                Voice::new(&[Task::default()], Habits { holds_back, ..Habits::default() }, &mut say);
            voice.remark(b"of the line");
            let at_once = said.take();
            assert!(!voice.end(&[ok("a")]).is_silent);
            assert_eq!([at_once, said.take()], wanted);
        }
    }

    #[test]
    fn tasks_are_told_in_an_order_of_their_own() {
        let mut said = Vec::new();
        let mut say = |_: bool, text: &[u8]| said.push(String::from_utf8_lossy(text).into_owned());
        let voice = Voice::new(&tasks(3), Habits { holds_back: true, ..Habits::default() }, &mut say)
            .in_order(vec![2, 0, 1]);
        assert_eq!(voice.end(&[ok("host"), ok("cudafe"), ok("cicc")]), End { status: 0, is_silent: false });
        assert_eq!(said, ["cicc", "host", "cudafe"]);
    }

    #[test]
    fn nothing_follows_the_first_command_that_failed() {
        let steps: [&[Done]; 1] = [&[Done::default(), done(7, "", "b"), done(6, "", "c")]];
        assert_eq!(
            told(&tasks(3), Habits::default(), &steps),
            (vec![String::new(), "!b ".into()], End { status: 7, is_silent: false })
        );
        let threads = Habits { has_threads: true, ..Habits::default() };
        assert_eq!(
            told(&tasks(3), threads, &steps),
            (vec![String::new(), "!b !c ".into()], End { status: 255, is_silent: false })
        );
        assert_eq!(
            told(&tasks(1), Habits::default(), &[&[done(3, "", "")]]).1,
            End { status: 3, is_silent: true }
        );
    }

    #[test]
    fn after_a_failure_of_the_first_that_nvcc_starts_no_other_is_told() {
        let told_of = |first_wave, steps: &[Done]| {
            told(&tasks(4), Habits { has_threads: true, first_wave, ..Habits::default() }, &[steps])
                .0
                .concat()
        };
        let all = [ok("a"), done(1, "", "b"), done(1, "", "c"), ok("d")];
        assert_eq!(
            [0, 1, 2, 3, 4].map(|first_wave| told_of(first_wave, &all)),
            ["!a !b !c !d ", "!a !b !c !d ", "!a !b ", "!a !b !c ", "!a !b !c !d "]
        );
    }

    #[test]
    fn a_signal_has_words() {
        let status = Status { code: 137, signal: Some(9), dumped: false };
        let killed = Done {
            ended: Some(Ended { status, out: Vec::new(), errors: b"x\n".to_vec(), times: (1.0, 2.0) }),
            ..Done::default()
        };
        assert_eq!(told(&tasks(1), Habits::default(), &[&[killed]]).0, ["!x\nKilled\n ", ""]);
    }

    #[test]
    fn what_makes_the_dependency_file_comes_first() {
        let tasks = [Task::default(), rule(), Task::default()];
        let by_driver = Done { by_driver: true, ..Done::default() };
        let steps: [&[Done]; 2] =
            [&[ok("a"), Done::default(), Done::default()], &[ok("a"), by_driver, ok("c")]];
        assert_eq!(told(&tasks, Habits::default(), &steps).0, ["", "!a !c ", ""]);
        let made = [ok("a"), done(0, "out", "b"), ok("c")];
        assert_eq!(told(&tasks, Habits::default(), &[&made]).0, ["!a .out !c ", ""]);
        let speaks = Habits { rule_speaks: true, ..Habits::default() };
        assert_eq!(told(&tasks, speaks, &[&made]).0, [".out !b !c ", ""]);
        let warns = [ok("a"), ok("nvcc warning : x\nb\n nvcc warning : y"), ok("nvcc warning : c")];
        assert_eq!(
            told(&tasks, speaks, &[&warns]).0,
            ["!b\n nvcc warning : y !nvcc warning : c ", ""],
            "nvcc has warned before"
        );
        assert_eq!(
            told(&tasks, speaks, &[&[ok("a"), done(5, "out", "b"), Done::default()]]).0[0],
            "",
            "nvcc makes the call"
        );
        let failed = [done(5, "", "a"), Done::default(), Done::default()];
        assert_eq!(
            told(&tasks, speaks, &[&failed]),
            (vec![String::new(), "!a ".into()], End { status: 5, is_silent: false })
        );
    }

    #[test]
    fn the_task_in_front_is_heard_while_it_runs() {
        let launched = Task { without_launcher: Some(machine::jobs::Job::default()), ..Task::default() };
        let mut said = Vec::new();
        let mut say = |_: bool, text: &[u8]| said.push(String::from_utf8_lossy(text).into_owned());
        let mut voice = Voice::new(&[Task::default(), launched], Habits::default(), &mut say);
        assert_eq!(voice.front(), Some(0));
        voice.hear(0, [b"", b"one"]);
        voice.hear(1, [b"no", b"no"]);
        voice.hear(0, [b"", b"one two"]);
        voice.tell(&[ok("one two three"), Done::default()]);
        assert_eq!(voice.front(), None, "a cache may refuse the next one");
        voice.tell(&[ok("one two three"), ok("b")]);
        assert_eq!(voice.front(), None, "all has been told");
        assert!(!voice.end(&[ok("one two three"), ok("b")]).is_silent);
        assert_eq!(said, ["one", " two", " three", "b"]);
        let mut nobody = |_: bool, _: &[u8]| ();
        for (tasks, holds_back) in [
            ([rule(), Task::default()], false),
            ([Task::default(), rule()], false),
            (tasks(2).try_into().unwrap(), true),
        ] {
            assert_eq!(
                Voice::new(&tasks, Habits { holds_back, ..Habits::default() }, &mut nobody).front(),
                None
            );
        }
    }
}

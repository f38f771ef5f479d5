//! What nvcc does with `-t`: it starts so many commands at once. If one fails, those that run go on to their
//! ends, and no other starts.
use crate::run::{self, NoRule, Stopped};
use machine::jobs::Machine;
use machine::task::{Done, Task};
use std::slice;

/// How many tasks, in nvcc's order, nvcc starts before one has ended.
pub fn first_wave(tasks: &[Task], at_once: usize) -> usize {
    tasks.iter().take(at_once).take_while(|task| task.needs.is_empty()).count()
}

/// Runs those of the first tasks that never began, if another of them failed: a call that waits for slots may
/// begin fewer than nvcc.
/// An error if a signal comes, or no process can be started.
pub fn finish_wave<M: Machine>(machine: &mut M, wave: &[Task], done: &mut [Done]) -> Result<(), Stopped> {
    if !done.iter().zip(wave).any(|(done, _)| done.failed()) {
        return Ok(());
    }
    for (done, task) in done.iter_mut().zip(wave).filter(|(done, _)| !done.has_ended()) {
        run::run(machine, &mut NoRule, slice::from_ref(task), 1)?.into_iter().for_each(|end| *done = end);
    }
    Ok(())
}

#[cfg(test)]
mod tests {
    use super::*;

    fn tasks(needs: &[&[usize]]) -> Vec<Task> {
        needs.iter().map(|needs| Task { needs: needs.to_vec(), ..Task::default() }).collect()
    }

    #[test]
    fn nvcc_begins_with_those_that_need_no_other() {
        let tasks = tasks(&[&[], &[], &[], &[0], &[]]);
        assert_eq!([0, 1, 2, 3, 8].map(|at_once| first_wave(&tasks, at_once)), [0, 1, 2, 3, 3]);
        assert_eq!(first_wave(&[], 4), 0);
    }
}

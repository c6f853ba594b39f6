//! The thread on which the library runs, so that its stack is none of the caller's.

use crate::BATCH_STACK;
use std::any::Any;
use std::io;
use std::marker::PhantomData;
use std::mem;
use std::panic::{catch_unwind, resume_unwind, AssertUnwindSafe};
use std::sync::mpsc::{channel, Receiver, Sender};
use std::thread::{Builder, JoinHandle};

/// For what the header leaves to the caller: the frames of the thread and of its job, thread-local variables of the whole program,
/// and a signal's handler.
const MARGIN: usize = 256 * 1024;

type Job = Box<dyn FnOnce(&OnWorker) + Send>;

/// Says that the code that holds it runs on a worker's thread, and so has the stack of every call of the library.
pub struct OnWorker(PhantomData<*const ()>);

/// A thread that does jobs one after another, until it is dropped.
pub struct Worker {
    /// `None` only while it is dropped.
    jobs: Option<Sender<Job>>,
    thread: Option<JoinHandle<()>>,
}

impl Worker {
    pub fn start() -> io::Result<Worker> {
        let (jobs, to_do) = channel();
        let thread = Builder::new()
            .name("trail".to_string())
            .stack_size(BATCH_STACK + MARGIN)
            .spawn(move || work(to_do))?;
        Ok(Worker {
            jobs: Some(jobs),
            thread: Some(thread),
        })
    }

    /// Does the job on what is lent, and waits for it. A job that panics does so on the caller's thread, after what was lent is back.
    pub fn run<L, A>(
        &self,
        lent: &mut L,
        job: impl FnOnce(&mut L, &OnWorker) -> A + Send + 'static,
    ) -> A
    where
        L: Default + Send + 'static,
        A: Send + 'static,
    {
        let (answers, answer) = channel();
        let mut taken = mem::take(lent);
        let job = move |on_worker: &OnWorker| {
            let done = catch_unwind(AssertUnwindSafe(|| job(&mut taken, on_worker)));
            // The one who receives it waits below.
            let _ = answers.send((taken, done));
        };
        let jobs = self.jobs.as_ref().expect("the worker is not dropped");
        jobs.send(Box::new(job)).expect("the thread waits for jobs");
        let (taken, done): (L, Result<A, Box<dyn Any + Send>>) =
            answer.recv().expect("the thread does every job");
        *lent = taken;
        done.unwrap_or_else(|panic| resume_unwind(panic))
    }
}

/// No job unwinds, so this ends only when no more can come.
fn work(jobs: Receiver<Job>) {
    for job in jobs {
        job(&OnWorker(PhantomData));
    }
}

impl Drop for Worker {
    fn drop(&mut self) {
        drop(self.jobs.take());
        if let Some(thread) = self.thread.take() {
            // It has no job, and ends at once.
            let _ = thread.join();
        }
    }
}

#[cfg(test)]
mod tests {
    use super::*;
    use std::thread;

    #[test]
    fn a_job_that_panics_gives_back_what_it_was_lent() {
        let worker = Worker::start().unwrap();
        let mut lent = vec![1];
        let run = || {
            worker.run(&mut lent, |lent, _| {
                lent.push(2);
                panic!("a job that panics");
            })
        };
        let panicked = catch_unwind(AssertUnwindSafe(run));
        assert_eq!(
            panicked.unwrap_err().downcast_ref(),
            Some(&"a job that panics")
        );
        assert_eq!(lent, [1, 2]);
        let length = worker.run(&mut lent, |lent, _| lent.len());
        assert_eq!((length, lent), (2, vec![1, 2]));
    }

    #[test]
    fn jobs_of_many_threads_run_on_one() {
        let worker = Worker::start().unwrap();
        let on = |mut number: u32| {
            worker.run(&mut number, |number, _| (*number, thread::current().id()))
        };
        let (_, id) = on(0);
        assert_ne!(id, thread::current().id());
        thread::scope(|scope| {
            for number in 0..20 {
                scope.spawn(move || assert_eq!(on(number), (number, id)));
            }
        });
    }
}

//! The hops of a run of jobs, and nothing else: what its threads of control, its two resource
//! managers and its log say to each other, over rings with the order and the bytes of a line's. A
//! resource manager only answers, the log only replies, and nothing is looked at. As there a job
//! takes one round trip to the resource managers and one to the log, and its last calls go with the
//! first ones of the thread's next job. A worker with nothing to do looks again, if each has a
//! processor of its own, and yields; none sleeps.

#[path = "ring.rs"]
#[allow(dead_code)]
mod ring;

use ring::{must, Back, Call, Front, Ring};
use std::hint;
use std::sync::atomic::Ordering::SeqCst;
use std::sync::atomic::{AtomicBool, AtomicUsize};
use std::thread;
use std::time::Instant;

const JOBS: usize = 1_000;
const RMS: usize = 2;

/// The calls of a job up to its vote, and that after the decision.
const FIRST: usize = 3;
const LAST: usize = 1;

/// How often a worker looks before it yields, if each has a processor of its own.
const LOOKS: usize = 200;

/// Where a thread of control asks the log.
struct Slip {
    asked: AtomicBool,
    written: AtomicBool,
}

/// What all workers share.
struct Shared {
    slips: Vec<Slip>,
    running: AtomicUsize,
    looks: usize,
}

impl Shared {
    /// Looks until something was found.
    fn until(&self, mut found: impl FnMut() -> bool) {
        let mut looks = 0;
        while !found() {
            looks += 1;
            if looks < self.looks {
                hint::spin_loop();
            } else {
                thread::yield_now();
            }
        }
    }

    fn is_over(&self) -> bool {
        self.running.load(SeqCst) == 0
    }

    /// Works until all threads of control have ended. The work says whether there was any.
    fn while_running(&self, mut work: impl FnMut() -> bool) {
        while !self.is_over() {
            self.until(|| work() || self.is_over());
        }
    }
}

fn issue(front: &mut Front<'_>, calls: usize) {
    for _ in 0..calls {
        must(front.calls.push(Call([7; 19])).is_ok());
    }
}

fn hear(shared: &Shared, fronts: &mut [Front<'_>], answers: usize) {
    for front in fronts {
        for _ in 0..answers {
            shared.until(|| front.hear().is_some());
        }
    }
}

fn control(shared: &Shared, slip: &Slip, mut fronts: Vec<Front<'_>>, jobs: usize) {
    let mut told = 0;
    for _ in 0..jobs {
        fronts.iter_mut().for_each(|front| issue(front, FIRST));
        hear(shared, &mut fronts, told + FIRST);
        slip.asked.store(true, SeqCst);
        shared.until(|| slip.written.load(SeqCst) && slip.written.swap(false, SeqCst));
        fronts.iter_mut().for_each(|front| issue(front, LAST));
        told = LAST;
    }
    hear(shared, &mut fronts, told);
    shared.running.fetch_sub(1, SeqCst);
}

fn serve(shared: &Shared, mut backs: Vec<Back<'_>>) {
    shared.while_running(|| {
        let mut any = false;
        for back in &mut backs {
            while back.answer() {
                any = true;
            }
        }
        any
    });
}

fn log(shared: &Shared) {
    shared.while_running(|| {
        let mut any = false;
        for slip in &shared.slips {
            if slip.asked.load(SeqCst) && slip.asked.swap(false, SeqCst) {
                slip.written.store(true, SeqCst);
                any = true;
            }
        }
        any
    });
}

/// Makes the hops of all jobs on so many threads of control. Starts and joins all workers but the
/// log's.
fn run(threads: usize) {
    let processors = thread::available_parallelism().map_or(1, |count| count.get());
    let shared = Shared {
        slips: (0..threads)
            .map(|_| Slip { asked: AtomicBool::new(false), written: AtomicBool::new(false) })
            .collect(),
        running: AtomicUsize::new(threads),
        looks: if processors > threads + RMS { LOOKS } else { 0 },
    };
    let mut rings: Vec<_> = (0..threads * RMS).map(|_| (Ring::new(), Ring::new())).collect();
    let mut fronts: Vec<Vec<Front<'_>>> = (0..threads).map(|_| Vec::new()).collect();
    let mut backs: Vec<Vec<Back<'_>>> = (0..RMS).map(|_| Vec::new()).collect();
    for (number, (calls, answers)) in rings.iter_mut().enumerate() {
        let (calls_in, calls_out) = calls.ends();
        let (answers_in, answers_out) = answers.ends();
        fronts[number / RMS].push(Front { calls: calls_in, answers: answers_out });
        backs[number % RMS].push(Back { calls: calls_out, answers: answers_in });
    }
    let shared = &shared;
    thread::scope(|scope| {
        for ends in backs {
            scope.spawn(move || serve(shared, ends));
        }
        for (number, ends) in fronts.into_iter().enumerate() {
            let jobs = (JOBS - number).div_ceil(threads);
            scope.spawn(move || control(shared, &shared.slips[number], ends, jobs));
        }
        log(shared);
    });
}

fn main() {
    for threads in [1, 2, 4, 8] {
        run(threads);
        let start = Instant::now();
        run(threads);
        println!("{threads} threads: {:.0} a second", JOBS as f64 / start.elapsed().as_secs_f64());
    }
}

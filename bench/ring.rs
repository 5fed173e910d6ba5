//! What ring.c does, in Rust, whose calls hand items over by value, as those of a line do: so it
//! shows what of the time is the copying of values. Each item is published by a store that is
//! SeqCst, as the stores of a line's rings are.

use std::cell::UnsafeCell;
use std::mem::MaybeUninit;
use std::process::exit;
use std::sync::atomic::AtomicUsize;
use std::sync::atomic::Ordering::SeqCst;
use std::thread;
use std::time::Instant;

const HOPS: usize = 3_000_000;
const PLACES: usize = 64;

/// 152 bytes, as a call of a line has.
#[derive(Clone)]
pub struct Call(pub [u64; 19]);

/// 32 bytes, so that a call beside its answer has 184.
pub struct Answer([u64; 4]);

/// What the two ends write lies apart.
#[repr(align(128))]
struct Apart(AtomicUsize);

pub struct Ring<T> {
    popped: Apart,
    pushed: Apart,
    places: UnsafeCell<[MaybeUninit<T>; PLACES]>,
}

// One end alone writes a place, until it is published to the other.
unsafe impl<T: Send> Sync for Ring<T> {}

/// The end that pushes, with the other's index as it last saw it.
pub struct Inlet<'a, T> {
    ring: &'a Ring<T>,
    pushed: usize,
    seen_popped: usize,
}

/// The end that pops.
pub struct Outlet<'a, T> {
    ring: &'a Ring<T>,
    popped: usize,
    seen_pushed: usize,
}

impl<T> Ring<T> {
    pub fn new() -> Ring<T> {
        Ring {
            popped: Apart(AtomicUsize::new(0)),
            pushed: Apart(AtomicUsize::new(0)),
            places: UnsafeCell::new([const { MaybeUninit::uninit() }; PLACES]),
        }
    }

    pub fn ends(&mut self) -> (Inlet<'_, T>, Outlet<'_, T>) {
        let ring = &*self;
        (Inlet { ring, pushed: 0, seen_popped: 0 }, Outlet { ring, popped: 0, seen_pushed: 0 })
    }

    fn place(&self, at: usize) -> *mut T {
        unsafe { (self.places.get() as *mut T).add(at % PLACES) }
    }
}

impl<T> Inlet<'_, T> {
    pub fn push(&mut self, item: T) -> Result<(), T> {
        if self.pushed - self.seen_popped == PLACES {
            self.seen_popped = self.ring.popped.0.load(SeqCst);
            if self.pushed - self.seen_popped == PLACES {
                return Err(item);
            }
        }
        unsafe { self.ring.place(self.pushed).write(item) };
        self.pushed += 1;
        self.ring.pushed.0.store(self.pushed, SeqCst);
        Ok(())
    }
}

impl<T> Outlet<'_, T> {
    fn pop(&mut self) -> Option<T> {
        if self.popped == self.seen_pushed {
            self.seen_pushed = self.ring.pushed.0.load(SeqCst);
            if self.popped == self.seen_pushed {
                return None;
            }
        }
        let item = unsafe { self.ring.place(self.popped).read() };
        self.popped += 1;
        self.ring.popped.0.store(self.popped, SeqCst);
        Some(item)
    }
}

/// The end that issues calls and hears answers.
pub struct Front<'a> {
    pub calls: Inlet<'a, Call>,
    pub answers: Outlet<'a, (Call, Answer)>,
}

/// The end that takes calls and answers them.
pub struct Back<'a> {
    pub calls: Outlet<'a, Call>,
    pub answers: Inlet<'a, (Call, Answer)>,
}

impl Front<'_> {
    pub fn hear(&mut self) -> Option<Call> {
        let (call, answer) = self.answers.pop()?;
        (answer.0[0] == 0).then_some(call)
    }
}

impl Back<'_> {
    /// Whether a call was there, and is answered.
    pub fn answer(&mut self) -> bool {
        match self.calls.pop() {
            Some(call) => self.answers.push((call, Answer([0; 4]))).is_ok(),
            None => false,
        }
    }
}

pub fn must(is_well: bool) {
    if !is_well {
        exit(1);
    }
}

/// Each hop goes with the call that came back from the hop before.
fn hops_in_one_thread(front: &mut Front<'_>, back: &mut Back<'_>) {
    let mut call = Call([7; 19]);
    for _ in 0..HOPS {
        must(front.calls.push(call).is_ok() && back.answer());
        match front.hear() {
            Some(heard) => call = heard,
            None => exit(1),
        }
    }
    must(call.0 == [7; 19]);
}

/// Issues the calls and hears their answers. A call that was heard is issued again.
fn hear_all(front: &mut Front<'_>) {
    for _ in 0..PLACES {
        must(front.calls.push(Call([7; 19])).is_ok());
    }
    for heard in 0..HOPS {
        let call = loop {
            match front.hear() {
                Some(call) => break call,
                None => thread::yield_now(),
            }
        };
        must(heard >= HOPS - PLACES || front.calls.push(call).is_ok());
    }
}

fn answer_all(back: &mut Back<'_>) {
    for _ in 0..HOPS {
        while !back.answer() {
            thread::yield_now();
        }
    }
}

fn show(place: &str, start: Instant) {
    println!("{HOPS} hops {place}\n{:.0} a second", HOPS as f64 / start.elapsed().as_secs_f64());
}

fn main() {
    let (mut calls, mut answers) = (Ring::new(), Ring::new());
    let (calls_in, calls_out) = calls.ends();
    let (answers_in, answers_out) = answers.ends();
    let mut front = Front { calls: calls_in, answers: answers_out };
    let mut back = Back { calls: calls_out, answers: answers_in };
    let start = Instant::now();
    hops_in_one_thread(&mut front, &mut back);
    show("in one thread", start);
    let start = Instant::now();
    thread::scope(|scope| {
        scope.spawn(|| answer_all(&mut back));
        hear_all(&mut front);
    });
    show("between two threads", start);
}

//! The ways to make calls on a case, each by the library on the image and by
//! the reference on its record; how they are compared, and how they are timed.

use crate::library;
use crate::rounds::quickest;
use crate::workload::{Case, Workload};
use darthog_host::raw::Reply;
use darthog_reference::calls::Outcome;
use darthog_reference::image::encode;
use darthog_reference::lists::{numbers_of, run_inner, NUMBERS};
use darthog_reference::queue::Queue;
use std::hint::black_box;

/// A way to make calls on a case's record.
pub trait Way {
    /// By the library, in place on the image.
    fn library(&self, image: &mut [u8], case: &Case, answers: &mut [u32]);

    /// By the reference, in place on its record.
    fn reference(&self, queue: &mut Queue, case: &Case, answers: &mut [u32]);

    /// What the library does without a call, where this is not counted.
    fn library_without(&self, _image: &mut [u8]) {}

    /// How many calls it makes on a case.
    fn calls(&self, case: &Case) -> usize;

    /// Whether both leave the same record and the same answers.
    fn agrees(&self, case: &Case) -> bool {
        let (mut image, mut queue) = (case.image.clone(), case.queue.clone());
        let mut told = [case.room(), case.room()];
        self.library(&mut image, case, &mut told[0]);
        self.reference(&mut queue, case, &mut told[1]);
        image == encode(&queue) && told[0] == told[1]
    }
}

/// Bare steps in a loop: the library's one test of the bytes is subtracted, the
/// reference makes no check 21, and answers are dropped.
pub struct BareSteps;

impl Way for BareSteps {
    fn library(&self, image: &mut [u8], case: &Case, _answers: &mut [u32]) {
        black_box(library::bare_steps(image, black_box(&case.who)));
    }

    fn reference(&self, queue: &mut Queue, case: &Case, _answers: &mut [u32]) {
        for &p in black_box(&case.who) {
            // The answer is dropped, as the library drops it.
            let _ = queue.step_inner(u64::from(p));
        }
    }

    fn library_without(&self, image: &mut [u8]) {
        black_box(library::bare_steps(image, black_box(&[])));
    }

    fn calls(&self, case: &Case) -> usize {
        case.who.len()
    }
}

/// A case's calls in lists of so many, with a test for each list.
pub struct Lists {
    /// How many calls a list has.
    pub at_once: usize,
}

impl Way for Lists {
    fn library(&self, image: &mut [u8], case: &Case, answers: &mut [u32]) {
        let size = NUMBERS * self.at_once;
        for (calls, answers) in case.calls.chunks(size).zip(answers.chunks_mut(size)) {
            black_box(library::calls(image, black_box(calls), answers));
        }
    }

    fn reference(&self, queue: &mut Queue, case: &Case, answers: &mut [u32]) {
        let size = NUMBERS * self.at_once;
        for (calls, answers) in case.calls.chunks(size).zip(answers.chunks_mut(size)) {
            if black_box(&*queue).sound() {
                run_inner(queue, black_box(calls), answers);
            }
        }
    }

    fn calls(&self, case: &Case) -> usize {
        case.calls.len() / NUMBERS
    }
}

/// One call of each processor of a case's list, with a test for each.
pub struct Single<L, R> {
    /// The library's call.
    pub library: L,
    /// The reference's, with check 21.
    pub reference: R,
}

impl<L, R> Way for Single<L, R>
where
    L: Fn(&mut [u8], u32) -> Reply,
    R: Fn(&mut Queue, u32) -> Outcome,
{
    fn library(&self, image: &mut [u8], case: &Case, _answers: &mut [u32]) {
        for &p in &case.who {
            black_box((self.library)(black_box(&mut *image), p));
        }
    }

    fn reference(&self, queue: &mut Queue, case: &Case, _answers: &mut [u32]) {
        for &p in &case.who {
            black_box((self.reference)(black_box(&mut *queue), p));
        }
    }

    fn calls(&self, case: &Case) -> usize {
        case.who.len()
    }

    fn agrees(&self, case: &Case) -> bool {
        let (mut image, mut queue) = (case.image.clone(), case.queue.clone());
        case.who.iter().all(|&p| {
            let reply = (self.library)(&mut image, p);
            let outcome = (self.reference)(&mut queue, p);
            let told = [reply.code, reply.first, reply.second, reply.third];
            image == encode(&queue) && told == numbers_of(&outcome)
        })
    }
}

/// Nanoseconds a call.
#[derive(Clone, Copy)]
pub struct Cost {
    /// Of the reference.
    pub reference: f64,
    /// Of the library.
    pub library: f64,
}

/// Whether the branches that a processor takes are those of its last runs.
#[derive(Clone, Copy)]
pub enum Order {
    /// All cases in turn: mostly not, as where workers step at random.
    InTurn,
    /// Each case many times in a row: the processor learns them.
    Again,
}

impl Order {
    fn in_a_row(self) -> usize {
        match self {
            Order::InTurn => 1,
            Order::Again => 64,
        }
    }
}

/// What a way costs on a workload: the copies of records and images that the
/// calls start from are subtracted.
pub fn cost(workload: &Workload, way: &impl Way, order: Order) -> Cost {
    let cases = &workload.cases;
    let mut answers = cases[0].room();
    let mut told = answers.clone();
    let [library, library_without, reference, reference_without] = quickest([
        &mut || {
            on_images(cases, order, |image, case| {
                way.library(image, case, &mut answers)
            })
        },
        &mut || on_images(cases, order, |image, _| way.library_without(image)),
        &mut || {
            on_records(cases, order, |queue, case| {
                way.reference(queue, case, &mut told)
            })
        },
        &mut || on_records(cases, order, |_, _| ()),
    ]);
    let once: usize = cases.iter().map(|case| way.calls(case)).sum();
    let calls = (once * order.in_a_row()) as f64;
    Cost {
        reference: (reference - reference_without) / calls,
        library: (library - library_without) / calls,
    }
}

fn on_images(cases: &[Case], order: Order, mut make: impl FnMut(&mut [u8], &Case)) {
    let mut image = cases[0].image.clone();
    for case in cases {
        for _ in 0..order.in_a_row() {
            image.copy_from_slice(black_box(&case.image));
            make(black_box(&mut image), case);
            black_box(&image);
        }
    }
}

fn on_records(cases: &[Case], order: Order, mut make: impl FnMut(&mut Queue, &Case)) {
    for case in cases {
        for _ in 0..order.in_a_row() {
            let mut queue = black_box(&case.queue).clone();
            make(black_box(&mut queue), case);
            black_box(&queue);
        }
    }
}

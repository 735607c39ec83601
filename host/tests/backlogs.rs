//! Backlog, with what is expected written by hand: which nodes it counts, and
//! what it gives along the printed run. Through the C entries and through the
//! crate. Nodes past the tail, which do not count, are in no image at all.

mod common;

use common::{reply_of, seed, Call, Lent};
use darthog_host::Queue;
use darthog_reference::calls::Outcome;
use darthog_reference::image::encode;
use darthog_reference::queue::fresh;
use darthog_reference::random::Random;
use darthog_reference::stated::backlogs::{printed, records, Counted, PRINTED};

/// The entry gives this count and changes no byte; the crate gives it too.
fn judge(lent: &mut Lent, count: u32, what: &str) {
    let image = lent.now().to_vec();
    let got = lent.call(&Call::Backlog);
    assert_eq!(got, reply_of(&Outcome::Count(count)), "{what}");
    assert!(lent.now() == image, "{what}: a byte changed");
    let kept = Queue::from_bytes(&image).expect("check 21 takes it");
    assert_eq!(kept.backlog(), Ok(count), "{what}: the crate");
}

#[test]
fn the_stated_nodes_are_counted() {
    let mut random = Random::new(seed());
    let mut cases = 0;
    for Counted { what, queue, count } in records() {
        judge(&mut Lent::new(&encode(&queue), &mut random), count, &what);
        cases += 1;
    }
    println!("{cases} records");
    assert!(cases > 400, "only {cases} records");
}

#[test]
fn the_printed_run_has_the_stated_backlogs() {
    let mut record = fresh(1, 1, 1).expect("the sizes are in range");
    let mut lent = Lent::new(&encode(&record), &mut Random::new(seed()));
    let mut calls = printed().into_iter();
    for (from, to, count) in PRINTED {
        for time in from..=to {
            let clock = Queue::from_bytes(lent.now()).map(|queue| queue.clock());
            assert_eq!(clock, Ok(time));
            judge(&mut lent, count, &format!("at {time}"));
            if let Some(asked) = calls.next() {
                let got = lent.call(&Call::of(&asked));
                assert_eq!(got, reply_of(&record.call(&asked)), "after {time}");
            }
        }
    }
    assert_eq!(calls.next(), None, "the run is longer");
}

//! Item 0, with what is expected written by hand: which number refuses an
//! Insert that has it, and how an image that came to have such an entry before
//! goes on. Through the C entries and through the crate.

mod common;

use common::{refused, reply_of, seed, Call, Lent};
use darthog_host::{Entry, Queue, Refusal, Step};
use darthog_reference::image::encode;
use darthog_reference::random::Random;
use darthog_reference::stated::items::{begun_with_item_0, goes_on, no_node_free, REFUSED};

#[test]
fn item_0_is_refused_in_its_place() {
    let mut random = Random::new(seed());
    let image = encode(&no_node_free());
    let mut queue = Queue::from_bytes(&image).expect("an image");
    for (numbers, number) in REFUSED {
        let [processor, due, item, height] = numbers.map(|value| value as u32);
        let mut lent = Lent::new(&image, &mut random);
        let got = lent.call(&Call::Insert(processor, due, item, height));
        assert_eq!(got, refused(number), "{numbers:?}");
        assert!(lent.now() == image, "{numbers:?} changed a byte");
        let got = queue.begin_insert(processor, due, item, height);
        assert_eq!(got.map_err(Refusal::number), Err(number), "{numbers:?}");
        assert!(queue.as_bytes()[..] == image, "{numbers:?} changed a byte");
    }
}

#[test]
fn at_the_end_of_the_clock_and_on_a_bad_record_item_0_is_not_looked_at() {
    let mut random = Random::new(seed());
    for (clock, number) in [(999_999, 31), (1_000_000, 21)] {
        let mut record = no_node_free();
        record.clock = clock;
        let image = encode(&record);
        let mut lent = Lent::new(&image, &mut random);
        assert_eq!(lent.call(&Call::Insert(1, 7, 0, 1)), refused(number));
        assert!(lent.now() == image, "{number} changed a byte");
    }
}

#[test]
fn an_image_with_item_0_goes_on_as_any_other() {
    let mut random = Random::new(seed());
    let mut record = begun_with_item_0();
    let mut lent = Lent::new(&encode(&record), &mut random);
    for (asked, outcome) in goes_on() {
        let call = Call::of(&asked);
        assert_eq!(lent.call(&call), reply_of(&outcome), "{call:?}");
        assert_eq!(record.call(&asked), outcome, "{call:?}: the reference");
        assert!(lent.now() == encode(&record), "{call:?}: other bytes");
    }
    assert_eq!(record.clock, 29);
}

/// The marks and hand-outs of that run, through the crate.
#[test]
fn the_crate_tells_item_0() {
    let image = encode(&begun_with_item_0());
    let mut queue = Queue::from_bytes(&image).expect("check 21 takes item 0");
    let entry = Entry {
        due: 7,
        item: 0,
        ticket: 1,
    };
    let mut told = Vec::new();
    for (asked, _) in goes_on() {
        match Call::of(&asked) {
            Call::Step(p) => match queue.step(p).expect("it is busy") {
                Step::Moved => {}
                step => told.push(step),
            },
            Call::DeleteMin(p) => drop(queue.begin_delete_min(p).expect("it is idle")),
            _ => {}
        }
    }
    let expected = [
        Step::Inserted(entry),
        Step::Marked(entry),
        Step::HandedOut(entry),
        Step::Empty,
    ];
    assert_eq!(told, expected);
    assert_eq!(queue.begin_insert(0, 7, 0, 1), Err(Refusal::NoItem));
    assert_eq!(queue.begin_insert(0, 7, 1, 1), Ok(29));
}

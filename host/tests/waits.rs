//! Whom a step waits for, with what is expected written by hand: steps at a lock
//! on records that most runs do not lead to, and runs with several workers. One
//! call at a time, as lists, and through the crate, on bytes. And that no call
//! looks at who holds a lock, but for naming the holder.

mod common;

use common::{
    any_call, area_with, expected, refused, reply, seed, single, stated_step, Call, Counts, Lent,
};
use darthog_host::{Call as Asked, Done, Entry, Queue, Refusal, Step};
use darthog_reference::any_record::any_record;
use darthog_reference::image::{encode, node_at};
use darthog_reference::queue::{fresh, Queue as Record};
use darthog_reference::random::Random;
use darthog_reference::stated::lists::split;
use darthog_reference::stated::waiting::{runs, Run};
use darthog_reference::stated::waits::{cases, Case};

/// What the crate makes of code and values.
fn done([code, first, second, third]: [u32; 4]) -> Result<Done, Refusal> {
    let entry = Entry {
        due: first,
        item: second,
        ticket: third,
    };
    let step = match code {
        0 => return Ok(Done::Began(first)),
        1 => Step::Moved,
        2 => Step::Waits {
            holder: first as u8,
        },
        3 => Step::Empty,
        4 => Step::Marked(entry),
        5 => Step::Inserted(entry),
        6 => Step::HandedOut(entry),
        7 => Step::TakenBack(entry),
        8 => Step::NotThere {
            due: first,
            ticket: second,
        },
        _ => return Err(Refusal::from_number(code).expect("a known number")),
    };
    Ok(Done::Stepped(step))
}

/// One call of a list, and the same through the crate.
fn asked([kind, processor, due, item, height]: [u32; 5]) -> (Call, Asked) {
    match kind {
        1 => (
            Call::Insert(processor, due, item, height),
            Asked::insert(processor, due, item, height),
        ),
        2 => (Call::DeleteMin(processor), Asked::delete_min(processor)),
        4 => (Call::Relaxed(processor), Asked::relaxed(processor)),
        5 => (
            Call::Remove(processor, due, item),
            Asked::remove(processor, due, item),
        ),
        _ => (Call::Step(processor), Asked::step(processor)),
    }
}

#[test]
fn steps_take_and_wait_on_the_stated_records() {
    let mut random = Random::new(seed());
    let mut counts = Counts::default();
    for case in cases() {
        let Case {
            what, processor, ..
        } = &case;
        let (image, after) = (encode(&case.queue), encode(&case.after));
        let [code, first, second, third] = case.reply;
        let answer = [code, first, second, third, case.after.clock];
        let got = stated_step(what, *processor, [&image, &after], answer, &mut random);
        counts.note_reply("step", &got);

        let mut queue = Queue::from_bytes(&image).expect("check 21 takes it");
        let got = queue.step(*processor).map(Done::Stepped);
        assert_eq!(got, done(case.reply), "{what}: the crate");
        assert!(queue.as_bytes() == after, "{what}: the crate's bytes");
    }
    counts.must_have(&[("step", &[1, 2])]);
}

/// A wait changes the clock's bytes and no other, told without the reference's
/// record.
#[test]
fn a_wait_changes_the_clock_alone() {
    let mut random = Random::new(seed());
    let mut waits = 0;
    for case in cases().iter().filter(|case| case.reply[0] == 2) {
        let mut image = encode(&case.queue);
        let mut lent = Lent::new(&image, &mut random);
        lent.call(&Call::Step(case.processor));
        let clock = u32::from_le_bytes([image[3], image[4], image[5], image[6]]) + 1;
        image[3..7].copy_from_slice(&clock.to_le_bytes());
        assert!(lent.now() == image, "{}", case.what);
        waits += 1;
    }
    assert_eq!(waits, 190);
}

#[test]
fn the_stated_runs_wait_for_the_stated_processors() {
    let mut random = Random::new(seed());
    let mut waits = 0;
    for Run { what, sizes, turns } in runs() {
        let [p, n, l] = sizes;
        let mut queue = Queue::new(p, n, l).expect("the sizes are in range");
        let fresh_image = queue.as_bytes().to_vec();
        let mut lent = Lent::new(&fresh_image, &mut random);
        for (numbers, [code, first, second, third, clock]) in &turns {
            let (call, _) = asked(*numbers);
            let told = [*code, *first, *second, *third];
            assert_eq!(lent.call(&call), reply(told), "{what}, at {clock}");
            assert_eq!(single(&mut queue, &call), done(told), "{what}, at {clock}");
            assert_eq!(queue.clock(), *clock, "{what}");
            assert!(lent.now() == queue.as_bytes(), "{what}, at {clock}");
            waits += u64::from(*code == 2);
        }
        let (calls, answers) = split(&turns);
        let mut listed = Lent::new(&fresh_image, &mut random);
        let got = listed.list(&calls, answers.len());
        assert_eq!(got, (0, area_with(&answers, answers.len())), "{what}");
        assert!(listed.now() == lent.now(), "{what}: as a list");

        let mut second = Queue::new(p, n, l).expect("the sizes are in range");
        let list: Vec<Asked> = turns.iter().map(|turn| asked(turn.0).1).collect();
        let got = second.calls(&list).expect("its bytes are an image");
        for (answer, (_, told)) in got.iter().zip(&turns) {
            let [code, first, second, third, clock] = *told;
            let expected = (done([code, first, second, third]), clock);
            assert_eq!((answer.done(), answer.clock()), expected, "{what}");
        }
        assert!(second.as_bytes() == lent.now(), "{what}: the crate's list");
    }
    println!("{waits} waits");
    assert!(waits > 60, "only {waits} waits");
}

/// The end of the clock comes before the lock, and check 21 before both: a
/// holder that the queue does not have is 21, at every lock.
#[test]
fn a_held_lock_is_looked_at_after_21_and_31() {
    let mut random = Random::new(seed());
    for case in cases() {
        let step = Call::Step(case.processor);
        let mut record = case.queue.clone();
        record.clock = 999_999;
        let ended = encode(&record);
        let p = record.processor_count;
        let mut judge = |image: &[u8], number: u32, what: &str| {
            let mut lent = Lent::new(image, &mut random);
            assert_eq!(lent.call(&step), refused(number), "{}, {what}", case.what);
            assert!(lent.now() == image, "{}, {what}: changed", case.what);
        };
        judge(&ended, 31, "at the end of the clock");
        for at in [8, 16] {
            let mut image = ended.clone();
            image[node_at(usize::from(p), 0) + at] = p + 1;
            judge(&image, 21, "the head's lock is that of no processor");
        }
    }
}

/// Where the locks of an image stand, as far as check 21 looks at them.
fn lock_places(record: &Record) -> Vec<usize> {
    let p = usize::from(record.processor_count);
    let levels = usize::from(record.level_count);
    (0..=usize::from(record.tail()))
        .flat_map(|node| (8..8 + levels).chain([16]).map(move |at| (node, at)))
        .map(|(node, at)| node_at(p, node) + at)
        .collect()
}

/// Whoever holds the locks: a call gives the same, but that a wait names who
/// stands for the holder, and leaves the same bytes but for the locks, of which
/// the same are held.
#[test]
fn no_call_looks_at_who_holds_a_lock() {
    let mut random = Random::new(seed());
    let (mut waits, mut differ) = (0, 0);
    for _ in 0..50_000 {
        let record = any_record(&mut random);
        let call = match any_call(&mut random, &record) {
            Call::Make(..) | Call::Backlog => Call::Step(0),
            call => call,
        };
        let last = u64::from(record.processor_count) - 1;
        let standing: Vec<u8> = (0..=last).map(|_| random.between(0, last) as u8).collect();
        let places = lock_places(&record);
        let image = encode(&record);
        let mut other = image.clone();
        for &at in places.iter().filter(|&&at| image[at] != 0) {
            other[at] = standing[usize::from(image[at]) - 1] + 1;
        }
        let mut first = Lent::new(&image, &mut random);
        let mut second = Lent::new(&other, &mut random);
        let (one, two) = (first.call(&call), second.call(&call));
        assert_eq!(one, expected(&image, &call).0, "{call:?}");
        let mut told = one;
        if one.code == 2 {
            told.first = u32::from(standing[one.first as usize]);
            waits += 1;
            differ += u64::from(told != one);
        }
        assert_eq!(two, told, "{call:?}");
        let (mut left, mut right) = (first.now().to_vec(), second.now().to_vec());
        for &at in &places {
            left[at] = left[at].min(1);
            right[at] = right[at].min(1);
        }
        assert!(left == right, "{call:?}: other bytes");
        assert!(first.area == second.area, "{call:?}: another area");
    }
    println!("{waits} waits, {differ} for another");
    assert!(waits > 200 && differ > 100, "{waits} {differ}");
}

/// A run by the reference to a wait, and on: its own numbers, no stated ones.
#[test]
fn the_holders_steps_end_the_wait() {
    let mut random = Random::new(seed());
    let mut record = fresh(16, 2, 1).expect("the sizes are in range");
    let mut lent = Lent::new(&encode(&record), &mut random);
    let mut queue = Queue::from_bytes(lent.now()).expect("an image");
    let mut call = |call: Call| {
        let got = lent.call(&call);
        let asked = call.of_reference().expect("no making");
        assert_eq!(got, common::reply_of(&record.call(&asked)), "{call:?}");
        let crates = single(&mut queue, &call);
        assert_eq!(crates, done([got.code, got.first, got.second, got.third]));
        got
    };
    call(Call::Insert(12, 5, 1, 1));
    call(Call::Insert(3, 6, 1, 1));
    for _ in 0..3 {
        assert_eq!(call(Call::Step(12)).code, 1);
    }
    while call(Call::Step(3)).code == 1 {}
    let mut freed = 0;
    while call(Call::Step(3)) == reply([2, 12, 0, 0]) {
        call(Call::Step(12));
        freed += 1;
    }
    // G3, I1, I2, I3
    assert_eq!(freed, 4);
}

//! Check 21: every looked-at field out of its range is refused with 21 by every
//! call, every field at the edge of its range passes, and slots past P, N+1
//! and L are neither looked at nor changed.

use darthog_reference::calls::Outcome;
use darthog_reference::markers::lent;
use darthog_reference::perturb::{bases, breaking, past_levels, past_slots, to_the_edge, CALLS};
use darthog_reference::schedule::Schedule;

#[test]
fn each_field_out_of_range_is_refused_with_21() {
    let mut count = 0;
    for (_, base) in bases() {
        for change in breaking(&base) {
            let mut queue = base.clone();
            (change.make)(&mut queue);
            assert!(!queue.sound(), "{}", change.name);
            let before = queue.clone();
            for call in CALLS {
                let outcome = queue.call(&call);
                assert_eq!(outcome, Outcome::Refused(21), "{}", change.name);
            }
            assert_eq!(queue.backlog(), Err(21));
            for room in [0, 400, 1000] {
                let mut area = lent(room);
                assert_eq!(queue.markers(&mut area), Err(21), "{}", change.name);
                assert!(area == lent(room), "{}: written", change.name);
            }
            assert_eq!(queue.step(0), Err(21));
            assert_eq!(queue.begin_delete_min(0), Err(21));
            assert_eq!(queue.begin_relaxed(0), Err(21));
            assert_eq!(queue.begin_insert(0, 0, 1, 1), Err(21));
            assert!(queue == before, "{}", change.name);
            count += 1;
        }
    }
    assert!(count > 10_000, "only {count} changes");
}

#[test]
fn each_field_at_the_edge_of_its_range_passes() {
    let mut count = 0;
    for (_, base) in bases() {
        for change in to_the_edge(&base) {
            let mut queue = base.clone();
            (change.make)(&mut queue);
            assert!(queue.sound(), "{}", change.name);
            assert!(queue.backlog().is_ok(), "{}", change.name);
            let used = queue.in_use();
            assert_eq!(queue.markers(&mut lent(400)), Ok(used), "{}", change.name);
            count += 1;
        }
    }
    assert!(count > 1000, "only {count} changes");
}

/// The same calls on the record and on the changed one give the same answers,
/// and at the end the two differ in the changed slot alone.
#[test]
fn slots_past_the_sizes_are_not_looked_at_and_not_changed() {
    let mut count = 0;
    for (sizes, base) in bases() {
        for change in past_slots(&base).into_iter().chain(past_levels(&base)) {
            let mut plain = base.clone();
            let mut changed = base.clone();
            (change.make)(&mut changed);
            let mut schedule = Schedule::new(count, sizes);
            for _ in 0..60 {
                let call = schedule.next_call();
                let outcome = plain.call(&call);
                assert_eq!(changed.call(&call), outcome, "{}", change.name);
                schedule.note(&call, &outcome);
            }
            (change.make)(&mut plain);
            assert!(plain == changed, "{}", change.name);
            count += 1;
        }
    }
    assert!(count > 1000, "only {count} changes");
}

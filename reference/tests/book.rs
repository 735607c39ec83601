//! The watchers can fail: wrong answers break the rule of the book that they
//! should, and a wrong refusal is noticed.

use darthog_reference::answer::{Answer, Entry};
use darthog_reference::book::{Book, Fault, Open, Written};
use darthog_reference::calls::{Call, Outcome};
use darthog_reference::markers::Listing;
use darthog_reference::misled::Misled;
use darthog_reference::mistakes::{Astray, Mistake, Wrong};
use darthog_reference::random::Random;
use darthog_reference::schedule::Sizes;
use darthog_reference::trial::{fresh_of, Machine, Trial};

const FIRST: Entry = Entry {
    due: 9,
    item: 1,
    ticket: 1,
};
const SECOND: Entry = Entry {
    due: 9,
    item: 2,
    ticket: 3,
};

fn insert(processor: u64, entry: Entry) -> (Call, Outcome) {
    let call = Call::Insert {
        processor,
        due: u64::from(entry.due),
        item: u64::from(entry.item),
        height: 1,
    };
    (call, Outcome::Began(entry.ticket))
}

fn delete(processor: u64, time: u32) -> (Call, Outcome) {
    (Call::DeleteMin { processor }, Outcome::Began(time))
}

fn relaxed(processor: u64, time: u32) -> (Call, Outcome) {
    (Call::Relaxed { processor }, Outcome::Began(time))
}

fn step(processor: u64, answer: Answer) -> (Call, Outcome) {
    (Call::Step { processor }, Outcome::Stepped(answer))
}

/// Enters these in turn; gives the first fault.
fn enter(list: &[(Call, Outcome)]) -> Result<Book, Fault> {
    let mut book = Book::new();
    for (call, outcome) in list {
        book.enter(call, outcome)?;
    }
    Ok(book)
}

/// Two entries answered at 2 and 4, and a Delete_Min of 0 begun at 5.
fn two_entries() -> Vec<(Call, Outcome)> {
    vec![
        insert(0, FIRST),
        step(0, Answer::Inserted(FIRST)),
        insert(1, SECOND),
        step(1, Answer::Inserted(SECOND)),
        delete(0, 5),
    ]
}

fn after_two_entries(more: &[(Call, Outcome)]) -> Result<Book, Fault> {
    let mut list = two_entries();
    list.extend_from_slice(more);
    enter(&list)
}

#[test]
fn right_answers_are_entered() {
    let refused = (Call::Step { processor: 3 }, Outcome::Refused(34));
    let book = after_two_entries(&[
        step(0, Answer::Moved),
        refused,
        (Call::Backlog, Outcome::Count(2)),
        step(0, Answer::Marked(FIRST)),
        step(0, Answer::Waits { holder: 1 }),
        step(0, Answer::HandedOut(FIRST)),
        delete(0, 10),
        step(0, Answer::Marked(SECOND)),
        delete(1, 12),
        step(1, Answer::Empty),
    ])
    .expect("all answers are right");
    assert_eq!((book.count, book.entries.len()), (13, 1));
}

/// Whomever it names, a wait asks for something open and changes the count
/// alone.
#[test]
fn a_wait_is_entered_whomever_it_names() {
    let before = after_two_entries(&[]).expect("all answers are right");
    for holder in [0, 1, 15, 255] {
        let wait = Answer::Waits { holder };
        let book = after_two_entries(&[step(0, wait)]).expect("0 has something open");
        let count = before.count + 1;
        let expected = Book {
            count,
            ..before.clone()
        };
        assert_eq!(book, expected);
        let idle = after_two_entries(&[step(1, wait)]);
        assert!(idle.unwrap_err().contains("nothing is open"));
    }
}

#[test]
fn wrong_begins_and_steps_are_noticed() {
    let wrong_time = insert(0, SECOND);
    assert!(enter(&[wrong_time]).unwrap_err().contains("another time"));
    let twice = after_two_entries(&[delete(0, 6)]);
    assert!(twice.unwrap_err().contains("something is open"));
    let idle = after_two_entries(&[step(1, Answer::Moved)]);
    assert!(idle.unwrap_err().contains("nothing is open"));
    let stranger = enter(&[delete(16, 1)]);
    assert!(stranger.unwrap_err().contains("no processor"));
    let mixed = enter(&[(Call::Backlog, Outcome::Began(1))]);
    assert!(mixed.unwrap_err().contains("cannot give this back"));
}

/// Of the counts 0 to 3 the book takes the one of the entries that are answered
/// and not marked.
#[test]
fn wrong_backlogs_are_noticed() {
    let counts = |list: &[(Call, Outcome)], right: u32| {
        for count in 0..4 {
            let mut list = list.to_vec();
            list.push((Call::Backlog, Outcome::Count(count)));
            let wrong = enter(&list).err();
            let expected = (count != right).then_some("a backlog of another number of entries");
            assert_eq!(wrong, expected, "{count} after {list:?}");
        }
    };
    counts(&[], 0);
    let other = Entry {
        ticket: 2,
        ..SECOND
    };
    let mut list = Vec::new();
    let calls = [
        (insert(0, FIRST), 0),
        (insert(1, other), 0),
        (step(0, Answer::Inserted(FIRST)), 1),
        (step(1, Answer::Inserted(other)), 2),
        (delete(0, 5), 2),
        (step(0, Answer::Marked(FIRST)), 1),
        (step(0, Answer::Waits { holder: 1 }), 1),
        (step(0, Answer::HandedOut(FIRST)), 1),
        ((Call::Step { processor: 0 }, Outcome::Refused(34)), 1),
    ];
    for (call, right) in calls {
        list.push(call);
        counts(&list, right);
    }
}

/// A listing with these bytes, so many of which are told of.
fn listed(nodes: u32, area: &[u8]) -> (Call, Outcome) {
    let room = area.len();
    let area = area.to_vec();
    let outcome = Outcome::Listed(Listing { nodes, area });
    (Call::Markers { room }, outcome)
}

const OTHER_NUMBER: &str = "markers of another number of entries";
const LEFT_OUT: &str = "markers without one that delivers an entry";
const DELIVERS_NOTHING: &str = "markers with one that delivers nothing";
const TWICE: &str = "markers with one that stands there twice";

/// 0 delivers the first entry, the second is not marked: the book takes the
/// listings of two nodes with 0 as one marker.
#[test]
fn wrong_markers_are_noticed() {
    let marked = step(0, Answer::Marked(FIRST));
    let fault = |nodes: u32, area: &[u8]| {
        let more = [marked.clone(), listed(nodes, area)];
        after_two_entries(&more).err()
    };
    for area in [
        &[1, 0, 2, 255][..],
        &[1, 255, 2, 0],
        &[1, 0, 2, 255, 0, 0, 1, 3],
    ] {
        assert_eq!(fault(2, area), None, "{area:?}");
    }
    for (nodes, area, words) in [
        (0, &[][..], OTHER_NUMBER),
        (1, &[1, 0], OTHER_NUMBER),
        (3, &[1, 0, 2, 255, 3, 255], OTHER_NUMBER),
        (4, &[1, 0, 2, 255, 3, 255, 4, 255], OTHER_NUMBER),
        (2, &[1, 255, 2, 255], LEFT_OUT),
        (2, &[1, 16, 2, 255], LEFT_OUT),
        (2, &[1, 1, 2, 0], DELIVERS_NOTHING),
        (2, &[1, 0, 2, 1], DELIVERS_NOTHING),
        (2, &[1, 0, 2, 15], DELIVERS_NOTHING),
        (2, &[1, 0, 2, 0], TWICE),
        (2, &[1, 255, 2, 255, 3, 0], LEFT_OUT),
    ] {
        assert_eq!(fault(nodes, area), Some(words), "{nodes} of {area:?}");
    }
}

/// An entry is told of from the begin of its Insert until it is handed out, and
/// its marker from the mark on; a listing ticks no count.
#[test]
fn markers_along_a_run() {
    let takes = |list: &[(Call, Outcome)], nodes: u32, area: &[u8]| {
        for (count, pairs) in [(0, &[][..]), (1, &[1, 255]), (1, &[1, 0]), (1, &[1, 1])] {
            let mut list = list.to_vec();
            list.push(listed(count, pairs));
            let right = (count, pairs) == (nodes, area);
            assert_eq!(enter(&list).is_ok(), right, "{pairs:?} after {list:?}");
        }
    };
    takes(&[], 0, &[]);
    let mut list = Vec::new();
    let calls = [
        (insert(0, FIRST), 1, &[1, 255][..]),
        (step(0, Answer::Moved), 1, &[1, 255]),
        (step(0, Answer::Inserted(FIRST)), 1, &[1, 255]),
        (delete(1, 4), 1, &[1, 255]),
        (step(1, Answer::Moved), 1, &[1, 255]),
        (step(1, Answer::Marked(FIRST)), 1, &[1, 1]),
        (listed(1, &[1, 1]), 1, &[1, 1]),
        (step(1, Answer::Waits { holder: 0 }), 1, &[1, 1]),
        (step(1, Answer::HandedOut(FIRST)), 0, &[]),
        (delete(0, 9), 0, &[]),
    ];
    for (call, nodes, area) in calls {
        list.push(call);
        takes(&list, nodes, area);
    }
    let refused = (Call::Markers { room: 0 }, Outcome::Refused(43));
    assert!(enter(&[insert(0, FIRST), refused]).is_ok());
    let mixed = enter(&[(Call::Markers { room: 9 }, Outcome::Count(0))]);
    assert!(mixed.unwrap_err().contains("cannot give this back"));
    let (_, none) = listed(0, &[]);
    let mixed = enter(&[(Call::Backlog, none)]);
    assert!(mixed.unwrap_err().contains("cannot give this back"));
}

#[test]
fn wrong_answers_are_noticed() {
    let fault = |answers: &[Answer]| {
        let steps: Vec<_> = answers.iter().map(|&answer| step(0, answer)).collect();
        after_two_entries(&steps).unwrap_err()
    };
    let other = Entry { item: 7, ..FIRST };
    // The pick is the first: equal dues, smaller ticket.
    assert_eq!(fault(&[Answer::Marked(SECOND)]), "marked, but not the pick");
    assert_eq!(fault(&[Answer::Marked(other)]), "marked, but not the pick");
    assert_eq!(fault(&[Answer::Empty]), "EMPTY, but there is a pick");
    assert!(fault(&[Answer::HandedOut(FIRST)]).contains("no Delete_Min is open that marked"));
    assert!(fault(&[Answer::Inserted(FIRST)]).contains("no Insert is open"));
    let marked = Answer::Marked(FIRST);
    assert!(fault(&[marked, Answer::Marked(SECOND)]).contains("nothing marked"));
    assert!(fault(&[marked, Answer::Empty]).contains("nothing marked"));
    let not_marked = "handed out, but not the entry that was marked";
    assert_eq!(fault(&[marked, Answer::HandedOut(SECOND)]), not_marked);
    assert_eq!(fault(&[marked, Answer::HandedOut(other)]), not_marked);

    let inserted = enter(&[insert(0, FIRST), step(0, Answer::Inserted(other))]);
    assert!(inserted.unwrap_err().contains("not the entry of this"));
}

#[test]
fn an_entry_answered_at_or_after_the_begin_is_no_pick() {
    let late = enter(&[
        insert(0, FIRST),
        delete(1, 2),
        step(0, Answer::Inserted(FIRST)),
        step(1, Answer::Marked(FIRST)),
    ]);
    assert_eq!(late.unwrap_err(), "marked, but there is no pick");
    let open = enter(&[
        insert(0, FIRST),
        delete(1, 2),
        step(1, Answer::Marked(FIRST)),
    ]);
    assert_eq!(open.unwrap_err(), "marked, but there is no pick");
}

#[test]
fn an_entry_is_marked_and_handed_out_once() {
    let twice = after_two_entries(&[
        step(0, Answer::Marked(FIRST)),
        delete(1, 7),
        step(1, Answer::Marked(FIRST)),
    ]);
    assert_eq!(twice.unwrap_err(), "marked, but not the pick");
    let again = after_two_entries(&[
        step(0, Answer::Marked(FIRST)),
        step(0, Answer::HandedOut(FIRST)),
        delete(0, 8),
        step(0, Answer::Marked(FIRST)),
    ]);
    assert_eq!(again.unwrap_err(), "marked, but not the pick");
}

/// A node taken where 37 was due is noticed at that very call.
#[test]
fn a_refusal_left_out_is_noticed() {
    let sizes = Sizes {
        processors: 3,
        nodes: 1,
        levels: 1,
    };
    let wrong = Wrong::new(fresh_of(sizes), Mistake::ReuseAtOnce);
    let mut trial = Trial::new(wrong, 10, sizes);
    let failure = trial.play(5000, 1).expect_err("the mistake is noticed");
    assert!(
        failure.fault.contains("refusal Some(37) was due"),
        "{failure:?}"
    );
}

const MARKED_BEFORE: &str = "marked, but it was marked before";
const NOT_WRITTEN: &str = "marked, but no such entry is written";
const EARLIER: &str = "marked, but an entry answered before the begin is earlier";
const LEFT: &str = "EMPTY, but an entry answered before the begin is left";

/// Two entries answered at 2 and 4; then the begins and answers of a Relaxed
/// Delete_Min of 0 that begins at 5.
fn after_relaxed(more: &[(Call, Outcome)]) -> Result<Book, Fault> {
    let mut list = two_entries();
    list.pop();
    list.push(relaxed(0, 5));
    list.extend_from_slice(more);
    enter(&list)
}

#[test]
fn right_answers_of_a_relaxed_one_are_entered() {
    let book = after_relaxed(&[
        step(0, Answer::Moved),
        step(0, Answer::Marked(FIRST)),
        relaxed(1, 8),
        step(1, Answer::Marked(SECOND)),
        step(0, Answer::Waits { holder: 1 }),
        step(1, Answer::HandedOut(SECOND)),
        relaxed(1, 12),
        step(1, Answer::Empty),
        step(0, Answer::HandedOut(FIRST)),
    ])
    .expect("all answers are right");
    assert_eq!((book.count, book.entries.len()), (14, 0));
}

#[test]
fn wrong_answers_of_a_relaxed_one_are_noticed() {
    let fault = |answers: &[Answer]| {
        let steps: Vec<_> = answers.iter().map(|&answer| step(0, answer)).collect();
        after_relaxed(&steps).unwrap_err()
    };
    let (other, unknown) = (Entry { item: 7, ..FIRST }, Entry { ticket: 2, ..FIRST });
    let (first, later_due) = (Answer::Marked(FIRST), Entry { due: 10, ..FIRST });
    assert_eq!(fault(&[Answer::Marked(SECOND)]), EARLIER);
    assert_eq!(fault(&[Answer::Marked(other)]), NOT_WRITTEN);
    assert_eq!(fault(&[Answer::Marked(later_due)]), NOT_WRITTEN);
    assert_eq!(fault(&[Answer::Marked(unknown)]), NOT_WRITTEN);
    assert_eq!(fault(&[Answer::Empty]), LEFT);
    assert!(fault(&[Answer::HandedOut(FIRST)]).contains("no Delete_Min is open that marked"));
    assert!(fault(&[Answer::Inserted(FIRST)]).contains("no Insert is open"));
    assert!(fault(&[first, first]).contains("nothing marked"));
    assert!(fault(&[first, Answer::Empty]).contains("nothing marked"));
    let not_marked = "handed out, but not the entry that was marked";
    assert_eq!(fault(&[first, Answer::HandedOut(SECOND)]), not_marked);
    let busy = after_relaxed(&[relaxed(0, 6)]);
    assert!(busy.unwrap_err().contains("something is open"));
    let time = after_relaxed(&[relaxed(1, 7)]);
    assert!(time.unwrap_err().contains("another time"));
    let mixed = enter(&[(Call::Relaxed { processor: 0 }, Outcome::Count(0))]);
    assert!(mixed.unwrap_err().contains("cannot give this back"));
}

/// What one has marked another may not mark, whichever kind either is of; it
/// stands in nobody's way either.
#[test]
fn marks_of_both_kinds_count_as_earlier_marks() {
    type Begin = fn(u64, u32) -> (Call, Outcome);
    let kinds: [[Begin; 2]; 3] = [[delete, relaxed], [relaxed, delete], [relaxed, relaxed]];
    for [first, second] in kinds {
        let then = |answer: Answer| {
            let mut list = two_entries();
            list.pop();
            list.extend([first(0, 5), step(0, Answer::Marked(FIRST)), second(1, 7)]);
            list.push(step(1, answer));
            enter(&list).err()
        };
        let again = then(Answer::Marked(FIRST)).expect("it is marked");
        assert!([MARKED_BEFORE, "marked, but not the pick"].contains(&again));
        assert_eq!(then(Answer::Marked(SECOND)), None);
        let empty = then(Answer::Empty).expect("the second is left");
        assert!([LEFT, "EMPTY, but there is a pick"].contains(&empty));
    }
}

/// 0 has answered the second entry alone; 1, with an earlier due minute, has not.
/// 2 may mark either one in a Relaxed Delete_Min, and the answered one alone in
/// an ordinary one.
#[test]
fn a_relaxed_one_may_mark_what_is_not_answered() {
    let early = Entry {
        due: 8,
        item: 3,
        ticket: 3,
    };
    let late = Entry { due: 10, ..early };
    let fault = |begin: (Call, Outcome), unanswered: Entry, answer: Answer| {
        let list = [
            insert(0, FIRST),
            step(0, Answer::Inserted(FIRST)),
            insert(1, unanswered),
            begin,
            step(2, answer),
        ];
        enter(&list).err()
    };
    let begin = relaxed(2, 4);
    assert_eq!(fault(begin.clone(), early, Answer::Marked(early)), None);
    assert_eq!(fault(begin.clone(), early, Answer::Marked(FIRST)), None);
    assert_eq!(fault(begin.clone(), late, Answer::Marked(FIRST)), None);
    let passed_over = fault(begin.clone(), late, Answer::Marked(late));
    assert_eq!(passed_over, Some(EARLIER));
    assert_eq!(fault(begin, early, Answer::Empty), Some(LEFT));
    for unanswered in [early, late] {
        let begin = delete(2, 4);
        let pick = fault(begin.clone(), unanswered, Answer::Marked(unanswered));
        assert_eq!(pick, Some("marked, but not the pick"));
        assert_eq!(fault(begin, unanswered, Answer::Marked(FIRST)), None);
    }
}

/// An entry answered at or after the begin stands in nobody's way, and is left
/// where EMPTY is answered.
#[test]
fn an_entry_answered_after_a_relaxed_begin_may_be_left() {
    for answer in [Answer::Empty, Answer::Marked(FIRST)] {
        let book = enter(&[
            insert(0, FIRST),
            relaxed(1, 2),
            step(0, Answer::Inserted(FIRST)),
            step(1, answer),
        ]);
        assert!(book.is_ok(), "{answer:?}");
    }
    let later = Entry {
        due: 10,
        item: 2,
        ticket: 2,
    };
    let book = enter(&[
        insert(0, FIRST),
        insert(1, later),
        relaxed(2, 3),
        step(0, Answer::Inserted(FIRST)),
        step(2, Answer::Marked(later)),
    ]);
    assert!(book.is_ok(), "FIRST was answered after the begin");
}

/// An entry that is handed out before its Insert answers: the answer gives it, is
/// given once, and neither counts as backlog nor comes up again.
#[test]
fn an_insert_may_answer_after_the_hand_out() {
    let handed = [
        insert(0, FIRST),
        relaxed(1, 2),
        step(1, Answer::Marked(FIRST)),
        step(1, Answer::HandedOut(FIRST)),
    ];
    let then = |more: &[(Call, Outcome)]| enter(&[&handed[..], more].concat());
    let open = then(&[]).expect("all answers are right");
    let written = Written {
        entry: FIRST,
        answered: None,
        marked: true,
        handed_out: true,
        taken_back: false,
    };
    assert_eq!((open.entries.as_slice(), open.held()), (&[written][..], 0));
    assert_eq!(open.open[0], Open::Insert(1));
    let none = listed(0, &[]);
    let zero = (Call::Backlog, Outcome::Count(0));
    let answered = step(0, Answer::Inserted(FIRST));
    let more = [none.clone(), zero.clone(), answered.clone(), none, zero];
    let book = then(&more).expect("all answers are right");
    assert_eq!((book.entries.len(), book.pending()), (0, 0));
    let other = then(&[step(0, Answer::Inserted(SECOND))]);
    assert!(other.unwrap_err().contains("not the entry of this Insert"));
    let twice = then(&[answered.clone(), answered.clone()]);
    assert!(twice.unwrap_err().contains("nothing is open"));
    for begin in [relaxed(1, 5), delete(1, 5)] {
        let again = then(&[begin.clone(), step(1, Answer::Marked(FIRST))]);
        assert!(again.is_err(), "{begin:?}");
        let empty = then(&[begin, answered.clone(), step(1, Answer::Empty)]);
        assert!(empty.is_ok());
    }
    let told = then(&[listed(1, &[1, 255])]);
    assert_eq!(told.unwrap_err(), OTHER_NUMBER);
}

/// A wrong book: what a Relaxed Delete_Min marks need not come before what was
/// answered.
#[derive(Clone)]
struct Lax(Book);

impl Lax {
    fn enter(&mut self, call: &Call, outcome: &Outcome) -> Result<(), Fault> {
        let before = self.0.clone();
        match self.0.enter(call, outcome) {
            Err(EARLIER) => {}
            other => return other,
        }
        self.0 = before;
        let (Call::Step { processor }, Outcome::Stepped(Answer::Marked(entry))) = (*call, outcome)
        else {
            panic!("only a mark is refused so");
        };
        let Open::Relaxed(begin) = self.0.open[processor as usize] else {
            panic!("only a Relaxed one is refused so");
        };
        let i = self.0.find(entry.ticket).expect("it is written");
        self.0.entries[i].marked = true;
        self.0.count += 1;
        let marked = Some(entry.ticket);
        self.0.open[processor as usize] = Open::DeleteMin { begin, marked };
        Ok(())
    }
}

/// By the wrong book a Relaxed walk may leave entries out; the right one refuses
/// that: on a list by hand, and in runs of a queue that does so.
#[test]
fn a_book_that_lets_a_relaxed_one_leave_entries_out_is_wrong() {
    let mut list = two_entries();
    list.pop();
    list.extend([relaxed(0, 5), step(0, Answer::Marked(SECOND))]);
    let mut lax = Lax(Book::new());
    let taken = list
        .iter()
        .try_for_each(|(call, outcome)| lax.enter(call, outcome));
    assert_eq!((taken, enter(&list).err()), (Ok(()), Some(EARLIER)));

    let (mut random, mut both, mut right_alone) = (Random::new(11), 0, 0);
    for _ in 0..200 {
        let sizes = Sizes::small(&mut random);
        let mut wrong = Wrong::new(fresh_of(sizes), Mistake::Relaxed(Astray::NextLeftOut));
        let mut trial = Trial::new(wrong.clone(), random.draw(), sizes);
        let Err(_) = trial.play_by_book(1000) else {
            continue;
        };
        let mut lax = Lax(Book::new());
        let taken = trial.calls.iter().try_for_each(|call| {
            let outcome = wrong.call(call);
            lax.enter(call, &outcome)
        });
        both += u64::from(taken.is_err());
        right_alone += u64::from(taken.is_ok());
    }
    println!("the right book alone noticed {right_alone} runs, both {both}");
    assert!(right_alone > 20, "{right_alone} {both}");
}

fn remove(processor: u64, entry: Entry, time: u32) -> (Call, Outcome) {
    let call = Call::Remove {
        processor,
        due: u64::from(entry.due),
        ticket: u64::from(entry.ticket),
    };
    (call, Outcome::Began(time))
}

fn not_there(entry: Entry) -> Answer {
    Answer::NotThere {
        due: entry.due,
        ticket: entry.ticket,
    }
}

/// Two entries answered at 2 and 4; then the begins and answers of a Remove of 0
/// that begins at 5 and looks for the second.
fn after_remove(more: &[(Call, Outcome)]) -> Result<Book, Fault> {
    let mut list = two_entries();
    list.pop();
    list.push(remove(0, SECOND, 5));
    list.extend_from_slice(more);
    enter(&list)
}

const STILL_THERE: &str = "not there, but it was answered before the begin and is unmarked";
const OTHER_KEY: &str = "marked, but not the key of this Remove";
const NO_REMOVE_MARKED: &str = "taken back, but no Remove is open that marked";

#[test]
fn right_answers_of_a_remove_are_entered() {
    let never = Entry { due: 8, ..FIRST };
    let late = Entry {
        ticket: 77,
        ..FIRST
    };
    let book = after_remove(&[
        step(0, Answer::Moved),
        (Call::Backlog, Outcome::Count(2)),
        step(0, Answer::Marked(SECOND)),
        (Call::Backlog, Outcome::Count(1)),
        listed(2, &[1, 255, 2, 0]),
        remove(1, SECOND, 8),
        step(1, not_there(SECOND)),
        step(0, Answer::Waits { holder: 1 }),
        step(0, Answer::TakenBack(SECOND)),
        listed(1, &[1, 255]),
        remove(0, SECOND, 12),
        step(0, not_there(SECOND)),
        remove(0, never, 14),
        step(0, not_there(never)),
        remove(0, late, 16),
        step(0, not_there(late)),
        delete(1, 18),
        step(1, Answer::Marked(FIRST)),
        remove(0, FIRST, 20),
        step(0, not_there(FIRST)),
        step(1, Answer::HandedOut(FIRST)),
    ])
    .expect("all answers are right");
    assert_eq!((book.count, book.entries.len()), (22, 0));
}

#[test]
fn wrong_answers_of_a_remove_are_noticed() {
    let fault = |answers: &[Answer]| {
        let steps: Vec<_> = answers.iter().map(|&answer| step(0, answer)).collect();
        after_remove(&steps).unwrap_err()
    };
    let (marked, other) = (Answer::Marked(SECOND), Entry { item: 7, ..SECOND });
    let back = |entry: Entry| Answer::TakenBack(entry);
    assert_eq!(fault(&[Answer::Marked(FIRST)]), OTHER_KEY);
    assert_eq!(fault(&[Answer::Marked(other)]), NOT_WRITTEN);
    assert_eq!(fault(&[not_there(SECOND)]), STILL_THERE);
    assert!(fault(&[not_there(FIRST)]).contains("another key than that"));
    assert!(fault(&[Answer::Empty]).contains("no Delete_Min is open"));
    assert_eq!(fault(&[back(SECOND)]), NO_REMOVE_MARKED);
    assert!(fault(&[Answer::Inserted(SECOND)]).contains("no Insert is open"));
    assert!(fault(&[marked, marked]).contains("nothing marked"));
    assert!(fault(&[marked, not_there(SECOND)]).contains("nothing marked"));
    let handed = Answer::HandedOut(SECOND);
    assert!(fault(&[marked, handed]).contains("no Delete_Min is open that marked"));
    let not_marked = "taken back, but not the entry that was marked";
    assert_eq!(fault(&[marked, back(FIRST)]), not_marked);
    assert_eq!(fault(&[marked, back(other)]), not_marked);
    assert!(fault(&[marked, back(SECOND), back(SECOND)]).contains("nothing is open"));
    let busy = after_remove(&[remove(0, FIRST, 6)]);
    assert!(busy.unwrap_err().contains("something is open"));
    let time = after_remove(&[remove(1, FIRST, 7)]);
    assert!(time.unwrap_err().contains("another time"));
    let mixed = enter(&[(remove(0, FIRST, 1).0, Outcome::Count(0))]);
    assert!(mixed.unwrap_err().contains("cannot give this back"));
}

/// U belongs to a Remove, T to a Delete_Min, and N to a Remove that has marked
/// nothing.
#[test]
fn a_delete_min_neither_takes_back_nor_answers_n() {
    for begin in [delete(1, 5), relaxed(1, 5)] {
        let then = |answers: &[Answer]| {
            let mut list = two_entries();
            list.pop();
            list.push(begin.clone());
            list.extend(answers.iter().map(|&answer| step(1, answer)));
            enter(&list).unwrap_err()
        };
        let marked = Answer::Marked(FIRST);
        assert_eq!(then(&[marked, Answer::TakenBack(FIRST)]), NO_REMOVE_MARKED);
        assert_eq!(then(&[Answer::TakenBack(FIRST)]), NO_REMOVE_MARKED);
        assert!(then(&[not_there(FIRST)]).contains("no Remove is open"));
        assert!(then(&[marked, not_there(FIRST)]).contains("no Remove is open"));
    }
    let insert_alone = [insert(0, FIRST), step(0, not_there(FIRST))];
    assert!(enter(&insert_alone).unwrap_err().contains("no Remove"));
}

/// What a Remove has marked another may not mark, and it is left out of every
/// pick; what another has marked a Remove may not mark.
#[test]
fn marks_of_removes_count_as_earlier_marks() {
    type Begin = fn(u64, u32) -> (Call, Outcome);
    let begins: [Begin; 2] = [delete, relaxed];
    for begin in begins {
        let then = |answer: Answer| {
            let mut list = two_entries();
            list.pop();
            list.extend([remove(0, FIRST, 5), step(0, Answer::Marked(FIRST))]);
            list.extend([begin(1, 7), step(1, answer)]);
            enter(&list).err()
        };
        let again = then(Answer::Marked(FIRST)).expect("it is marked");
        assert!([MARKED_BEFORE, "marked, but not the pick"].contains(&again));
        assert_eq!(then(Answer::Marked(SECOND)), None);
        assert!(then(Answer::Empty).is_some(), "the second is left");

        let lost = |answer: Answer| {
            let mut list = two_entries();
            list.pop();
            list.extend([begin(0, 5), step(0, Answer::Marked(FIRST))]);
            list.extend([remove(1, FIRST, 7), step(1, answer)]);
            enter(&list).err()
        };
        assert_eq!(lost(not_there(FIRST)), None);
        assert_eq!(lost(Answer::Marked(FIRST)), Some(MARKED_BEFORE));
    }
}

/// An entry that is answered at or after the begin is not there for a Remove, and
/// an unanswered one is not: it may not be marked.
#[test]
fn a_remove_leaves_what_was_not_answered_before_its_begin() {
    let too_late = "marked, but it was not answered before the begin";
    let answered = step(0, Answer::Inserted(FIRST));
    for between in [&[][..], &[answered][..]] {
        let then = |answer: Answer| {
            let mut list = vec![insert(0, FIRST), remove(1, FIRST, 2)];
            list.extend_from_slice(between);
            list.push(step(1, answer));
            enter(&list).err()
        };
        assert_eq!(then(not_there(FIRST)), None);
        assert_eq!(then(Answer::Marked(FIRST)), Some(too_late));
    }
    let never = enter(&[remove(1, FIRST, 1), step(1, Answer::Marked(FIRST))]);
    assert_eq!(never.unwrap_err(), NOT_WRITTEN);
}

/// The book keeps who was handed out and who was taken back apart, and neither
/// happens after the other; the answers alone cannot bring that about.
#[test]
fn nothing_is_both_handed_out_and_taken_back() {
    let gone = "taken back, but it was handed out or taken back before";
    let mut marked = after_remove(&[step(0, Answer::Marked(SECOND))]).expect("it is right");
    let (call, outcome) = step(0, Answer::TakenBack(SECOND));
    for (handed_out, taken_back) in [(true, false), (false, true)] {
        let mut book = marked.clone();
        let i = book.find(SECOND.ticket).expect("it is written");
        (book.entries[i].handed_out, book.entries[i].taken_back) = (handed_out, taken_back);
        assert_eq!(book.enter(&call, &outcome), Err(gone));
        book.entries.remove(i);
        assert_eq!(book.enter(&call, &outcome), Err(gone));
    }
    assert_eq!(marked.enter(&call, &outcome), Ok(()));
    assert_eq!(marked.open[0], Open::Nothing);
    assert_eq!(marked.find(SECOND.ticket), None);

    let list = [&two_entries()[..], &[step(0, Answer::Marked(FIRST))]].concat();
    let mut book = enter(&list).expect("it is right");
    let i = book.find(FIRST.ticket).expect("it is written");
    book.entries[i].taken_back = true;
    let (call, outcome) = step(0, Answer::HandedOut(FIRST));
    let before = "handed out, but it was handed out before";
    assert_eq!(book.enter(&call, &outcome), Err(before));
}

/// A wrong book: a Remove may answer N wherever it is.
struct Easy(Book);

impl Easy {
    fn enter(&mut self, call: &Call, outcome: &Outcome) -> Result<(), Fault> {
        let before = self.0.clone();
        match self.0.enter(call, outcome) {
            Err(STILL_THERE) => {}
            other => return other,
        }
        self.0 = before;
        let Call::Step { processor } = *call else {
            panic!("only a step answers N");
        };
        self.0.count += 1;
        self.0.open[processor as usize] = Open::Nothing;
        Ok(())
    }
}

/// By the wrong book a Remove may leave its entry there; the right one refuses
/// that, on a list by hand and in runs of queues that do so.
#[test]
fn a_book_that_lets_a_remove_leave_its_entry_is_wrong() {
    let mut list = two_entries();
    list.pop();
    list.extend([remove(0, SECOND, 5), step(0, not_there(SECOND))]);
    let mut easy = Easy(Book::new());
    let taken = list
        .iter()
        .try_for_each(|(call, outcome)| easy.enter(call, outcome));
    assert_eq!((taken, enter(&list).err()), (Ok(()), Some(STILL_THERE)));

    for (misled, least) in [(Misled::KeyLeft, 20), (Misled::GivesUp, 1)] {
        let (mut random, mut right_alone) = (Random::new(11), 0);
        for _ in 0..200 {
            let sizes = Sizes::small(&mut random);
            let mut wrong = Wrong::new(fresh_of(sizes), Mistake::Remove(misled));
            let mut trial = Trial::new(wrong.clone(), random.draw(), sizes);
            if trial.play_by_book(1000).is_ok() {
                continue;
            }
            let mut easy = Easy(Book::new());
            let taken = trial.calls.iter().try_for_each(|call| {
                let outcome = wrong.call(call);
                easy.enter(call, &outcome)
            });
            right_alone += u64::from(taken.is_ok());
        }
        println!("{misled:?}: the right book alone noticed {right_alone} runs");
        assert!(right_alone >= least, "{misled:?}: {right_alone}");
    }
}

//! The invariant's predicates can fail: single changes to a reached state break
//! one conjunct and leave all others whole.

use darthog_reference::book::{Book, Open};
use darthog_reference::calls::Call;
use darthog_reference::ghost::{Ghost, EVER};
use darthog_reference::invariant::all_broken;
use darthog_reference::queue::{Job, Operation, Place, Queue, Stage, Use, Wanted};
use darthog_reference::schedule::Sizes;
use darthog_reference::trial::fresh_of;

/// The record, the ghost and the book of a run.
#[derive(Clone)]
struct State {
    queue: Queue,
    ghost: Ghost,
    book: Book,
}

impl State {
    /// Two processors, three nodes, two levels.
    fn new() -> State {
        let sizes = Sizes {
            processors: 2,
            nodes: 3,
            levels: 2,
        };
        let queue = fresh_of(sizes);
        State {
            ghost: Ghost::new(&queue),
            queue,
            book: Book::new(),
        }
    }

    fn call(&mut self, call: Call) {
        let was = match call {
            Call::Step { processor } => self.queue.processors[processor as usize],
            _ => self.queue.processors[0],
        };
        let outcome = self.queue.call(&call);
        self.ghost.follow(&was, &call, &outcome, &self.queue);
        self.book.enter(&call, &outcome).expect("the call agrees");
        assert_eq!(self.broken(), Vec::<&str>::new(), "{call:?}");
    }

    fn begin_insert(&mut self, processor: u64, due: u64, height: u64) {
        self.call(Call::Insert {
            processor,
            due,
            item: 5,
            height,
        });
    }

    /// Steps until the stage is one of these.
    fn step_to(&mut self, processor: u64, there: fn(&Stage) -> bool) {
        while !there(&self.queue.processors[processor as usize].stage) {
            self.call(Call::Step { processor });
        }
    }

    fn finish(&mut self, processor: u64) {
        self.step_to(processor, |stage| *stage == Stage::Idle);
    }

    fn insert(&mut self, processor: u64, due: u64, height: u64) {
        self.begin_insert(processor, due, height);
        self.finish(processor);
    }

    fn delete_min(&mut self, processor: u64) {
        self.call(Call::DeleteMin { processor });
        self.finish(processor);
    }

    fn broken(&self) -> Vec<&'static str> {
        all_broken(&self.queue, &self.ghost, &self.book)
    }
}

/// Node 1 is retired, node 2 (due 10, height 1) and node 3 (due 20, height 2)
/// are settled, both processors are idle.
fn settled() -> State {
    let mut state = State::new();
    state.insert(0, 5, 2);
    state.delete_min(0);
    state.insert(0, 10, 1);
    state.insert(1, 20, 2);
    state
}

/// Makes one change and tells which conjuncts no longer hold.
fn broken_by(state: &State, change: impl Fn(&mut State)) -> Vec<&'static str> {
    let mut changed = state.clone();
    change(&mut changed);
    changed.broken()
}

#[test]
fn nodes_broken_one_conjunct_at_a_time() {
    let state = settled();
    let clock = state.queue.clock;
    let Use::Retired(retired) = state.queue.nodes[1].state else {
        panic!("node 1 is retired");
    };
    assert_eq!(
        broken_by(&state, |s| s.queue.nodes[0].stamp = Some(0)),
        ["Sound"]
    );
    assert_eq!(
        broken_by(&state, |s| s.ghost.until[0][1] = EVER - 1),
        ["EndsLinked"]
    );
    assert_eq!(
        broken_by(&state, |s| s.ghost.until[2][1] = clock + 1),
        ["UntilPast"]
    );
    assert_eq!(
        broken_by(&state, |s| s.ghost.until[1] = [5, 6, 0, 0, 0, 0, 0, 0]),
        ["UntilDown"]
    );
    assert_eq!(
        broken_by(&state, |s| s.queue.nodes[1].ticket =
            s.queue.nodes[2].ticket),
        ["TicketsDiffer"]
    );
    assert_eq!(
        broken_by(&state, |s| s.ghost.until[1][0] = retired + 1),
        ["HiRetired"]
    );
    assert_eq!(
        broken_by(&state, |s| s.queue.nodes[1].mark = 0),
        ["RetiredMarked"]
    );
    assert_eq!(
        broken_by(&state, |s| s.queue.nodes[0].forward[0] = 3),
        ["Succ"]
    );
    assert_eq!(
        broken_by(&state, |s| s.queue.nodes[3].forward[1] = 2),
        ["Succ"]
    );
    assert_eq!(
        broken_by(&state, |s| s.queue.nodes[1].mark = 2),
        Vec::<&str>::new(),
        "whose mark a retired node has is not looked at"
    );
    let mut fresh = State::new();
    fresh.queue.clock = 3;
    fresh.book.count = 3;
    assert_eq!(fresh.broken(), Vec::<&str>::new());
    fresh.ghost.until[2][0] = 3;
    assert_eq!(fresh.broken(), ["NeverNotLinked"]);
}

#[test]
fn locks_broken_one_conjunct_at_a_time() {
    let state = settled();
    assert_eq!(
        broken_by(&state, |s| s.queue.nodes[0].level_locks[1] = 1),
        ["LevelLockHeld"]
    );
    assert_eq!(
        broken_by(&state, |s| s.queue.nodes[2].node_lock = 2),
        ["NodeLockHeld"]
    );

    let mut insert = State::new();
    insert.begin_insert(0, 5, 1);
    insert.step_to(0, |stage| matches!(stage, Stage::G3Reread(..)));
    assert_eq!(
        broken_by(&insert, |s| s.queue.nodes[0].level_locks[0] = 0),
        ["HoldsPlace"]
    );
    insert.step_to(0, |stage| *stage == Stage::I4UnlockNode);
    assert_eq!(
        broken_by(&insert, |s| s.queue.nodes[1].node_lock = 0),
        ["HoldsNode"]
    );

    let mut delete = settled();
    delete.call(Call::DeleteMin { processor: 0 });
    delete.step_to(0, |stage| matches!(stage, Stage::L4PointBack(..)));
    assert_eq!(
        broken_by(&delete, |s| s.queue.nodes[2].level_locks[0] = 0),
        ["HoldsOwn"]
    );
}

#[test]
fn places_broken_one_conjunct_at_a_time() {
    let mut insert = settled();
    insert.delete_min(1); // Node 2 is retired; node 3 (due 20) is left.
    insert.begin_insert(0, 15, 1);
    insert.step_to(0, |stage| matches!(stage, Stage::G1Read(..)));
    assert_eq!(
        broken_by(&insert, |s| s.queue.processors[0].saved[1] = 3),
        ["SavedBefore"]
    );
    assert_eq!(
        broken_by(&insert, |s| s.queue.processors[0].saved[1] = 2),
        ["SavedFresh"]
    );

    // A walk stands at node 2 while the other processor removes it.
    let mut walk = settled();
    walk.call(Call::DeleteMin { processor: 1 });
    walk.step_to(1, |stage| matches!(stage, Stage::W2Compare(_)));
    walk.delete_min(0);
    let tail = walk.queue.tail();
    assert_eq!(walk.queue.nodes[2].forward[0], 0);
    assert_eq!(
        broken_by(&walk, |s| s.queue.nodes[2].forward[0] = tail),
        ["Back"]
    );
    assert_eq!(
        broken_by(&walk, |s| s.queue.nodes[2].forward[0] = 3),
        ["Back"]
    );
    let at_1 = Place { node: 1, level: 1 };
    assert_eq!(
        broken_by(&walk, |s| s.queue.processors[1].stage =
            Stage::W2Compare(at_1)),
        ["PlaceFresh"]
    );
    let at_3 = Place { node: 3, level: 1 };
    assert_eq!(
        broken_by(&walk, |s| s.queue.processors[1].stage = Stage::W1Read(at_3)),
        ["WalkW1"]
    );
}

#[test]
fn book_broken_one_conjunct_at_a_time() {
    let state = settled();
    assert_eq!(broken_by(&state, |s| s.book.count += 1), ["BookOpen"]);
    assert_eq!(
        broken_by(&state, |s| s.book.open[1] = Open::Insert(1)),
        ["BookOpen"]
    );
    assert_eq!(
        broken_by(&state, |s| s.queue.nodes[2].item += 1),
        ["BookEntries"]
    );
    assert_eq!(
        broken_by(&state, |s| s.book.entries.truncate(1)),
        ["BookEntries"]
    );
}

/// The mark of the node that processor 0 removes, as that of processor 1.
#[test]
fn a_mark_of_another_than_the_remover_breaks_one_conjunct() {
    let mut delete = settled();
    delete.call(Call::DeleteMin { processor: 0 });
    delete.step_to(0, |stage| matches!(stage, Stage::Search(..)));
    assert_eq!(delete.queue.nodes[2].mark, 1);
    for stage in [
        |stage: &Stage| matches!(stage, Stage::Search(..)),
        |stage: &Stage| matches!(stage, Stage::L3Unlink(..)),
        |stage: &Stage| matches!(stage, Stage::L8Retire(_)),
    ] {
        delete.step_to(0, stage);
        assert_eq!(
            broken_by(&delete, |s| s.queue.nodes[2].mark = 2),
            ["MarkerRemoves"]
        );
        assert_eq!(broken_by(&delete, |s| s.queue.nodes[2].mark = 3), ["Sound"]);
    }
    delete.finish(0);
    assert_eq!(delete.queue.nodes[2].mark, 1);
}

/// A Relaxed walk stands at one of two settled entries.
#[test]
fn relaxed_walks_broken_one_conjunct_at_a_time() {
    let mut walk = settled();
    walk.call(Call::Relaxed { processor: 0 });
    let begin = walk.queue.clock;
    let (second, third) = (Place { node: 2, level: 1 }, Place { node: 3, level: 1 });
    let stage = |s: &mut State, stage: Stage| s.queue.processors[0].stage = stage;
    assert_eq!(
        broken_by(&walk, |s| stage(s, Stage::RW1Read(second))),
        ["WalkW1"]
    );
    walk.step_to(0, |stage| matches!(stage, Stage::RW3Mark(_)));
    assert_eq!(walk.queue.processors[0].stage, Stage::RW3Mark(second));
    assert_eq!(
        broken_by(&walk, |s| stage(s, Stage::RW3Mark(third))),
        ["WalkW3"]
    );
    assert_eq!(
        broken_by(&walk, |s| stage(s, Stage::W3Mark(second))),
        ["BookOpen"]
    );
    assert_eq!(
        broken_by(&walk, |s| s.book.open[0] = Open::Relaxed(begin - 1)),
        ["BookOpen"]
    );
    let marked = None;
    assert_eq!(
        broken_by(&walk, |s| s.book.open[0] =
            Open::DeleteMin { begin, marked }),
        ["BookOpen"]
    );
}

/// No stamp is asked for at RW3, as it is at W3.
#[test]
fn an_unanswered_entry_breaks_an_ordinary_walk_alone() {
    let mut unanswered = State::new();
    unanswered.begin_insert(1, 10, 1);
    unanswered.step_to(1, |stage| *stage == Stage::I5Stamp);
    unanswered.call(Call::Relaxed { processor: 0 });
    unanswered.step_to(0, |stage| matches!(stage, Stage::RW3Mark(_)));
    let first = Place { node: 1, level: 1 };
    let (begin, marked) = (unanswered.queue.clock - 1, None);
    let ordinary = |s: &mut State| {
        s.book.open[0] = Open::DeleteMin { begin, marked };
        s.queue.processors[0].stage = Stage::W3Mark(first);
    };
    assert_eq!(broken_by(&unanswered, ordinary), ["W3Stamp"]);
}

/// Processor 1 removes what processor 0 has not answered.
#[test]
fn what_an_insert_and_its_remover_share_broken_one_conjunct_at_a_time() {
    let mut shared = State::new();
    shared.begin_insert(0, 5, 1);
    shared.step_to(0, |stage| *stage == Stage::I4UnlockNode);
    shared.call(Call::Relaxed { processor: 1 });
    shared.step_to(1, |stage| matches!(stage, Stage::L1LockNode(_)));
    assert_eq!(
        broken_by(&shared, |s| s.queue.nodes[1].node_lock = 0),
        ["HoldsNode"]
    );
    assert_eq!(
        broken_by(&shared, |s| s.queue.nodes[1].node_lock = 2),
        ["HoldsNode", "NodeLockHeld"]
    );
    shared.step_to(0, |stage| *stage == Stage::I5Stamp);
    shared.step_to(1, |stage| matches!(stage, Stage::L8Retire(_)));
    let before = |s: &mut State| s.queue.processors[0].stage = Stage::I4UnlockNode;
    let broken = broken_by(&shared, before);
    assert_eq!(broken, ["InsM", "HiInsert", "L8InsertAtI5", "HoldsNode"]);
}

/// Processor 1 has handed out what processor 0 has not answered.
#[test]
fn a_retired_node_of_an_insert_broken_one_conjunct_at_a_time() {
    let mut retired = State::new();
    retired.begin_insert(0, 5, 1);
    retired.step_to(0, |stage| *stage == Stage::I5Stamp);
    retired.call(Call::Relaxed { processor: 1 });
    retired.finish(1);
    retired.call(Call::Relaxed { processor: 1 });
    let now = retired.queue.clock;
    type Change = fn(&mut State);
    let changes: [(&str, Change); 6] = [
        ("BookRetired", |s| s.book.entries.clear()),
        ("BookRetired", |s| s.book.entries[0].marked = false),
        ("BookRetired", |s| s.book.entries[0].answered = Some(1)),
        ("BookRetired", |s| s.book.entries[0].entry.item += 1),
        ("BookRetired", |s| s.queue.nodes[1].due += 1),
        ("InsStamp", |s| s.queue.nodes[1].stamp = Some(1)),
    ];
    for (name, change) in changes {
        assert_eq!(broken_by(&retired, change), [name]);
    }
    assert_eq!(
        broken_by(&retired, |s| s.queue.processors[0].begin = now),
        ["OwnUse"]
    );
    assert_eq!(
        broken_by(&retired, |s| s.book.entries[0].handed_out = false),
        ["BookEntries", "BookRetired"]
    );
    retired.finish(0);
    assert!(retired.book.entries.is_empty());
}

/// Two settled entries, and a Remove of the second, with due minute 20, by
/// processor 0.
fn removing() -> (State, Wanted) {
    let mut state = settled();
    let (due, ticket) = (20, state.queue.nodes[3].ticket);
    state.call(Call::Remove {
        processor: 0,
        due: u64::from(due),
        ticket: u64::from(ticket),
    });
    (state, Wanted { due, ticket })
}

fn put_stage(state: &mut State, stage: Stage) {
    state.queue.processors[0].stage = stage;
}

/// The Search of a Remove and its read.
#[test]
fn a_search_for_a_key_broken_one_conjunct_at_a_time() {
    let (mut remove, wanted) = removing();
    let at = |node: u8, level: u8| Place { node, level };
    let search = |node: u8, level: u8| Stage::XSearch(wanted, at(node, level));
    let read = |node: u8| Stage::X1Read(wanted, at(node, 1));
    assert_eq!(remove.queue.processors[0].stage, search(0, 2));
    let broken = |state: &State, stage: Stage| broken_by(state, |s| put_stage(s, stage));
    assert_eq!(broken(&remove, search(3, 2)), ["PlaceBefore"]);
    assert_eq!(broken(&remove, search(1, 2)), ["PlaceFresh"]);
    for (due, ticket) in [(21, wanted.ticket), (20, wanted.ticket + 1)] {
        let other = Wanted { due, ticket };
        let stage = Stage::XSearch(other, at(0, 2));
        assert_eq!(broken(&remove, stage), ["BookOpen"]);
    }
    let ordinary = Stage::W1Read(at(0, 1));
    assert_eq!(broken(&remove, ordinary), ["BookOpen"]);

    remove.step_to(0, |stage| {
        matches!(stage, Stage::XSearch(_, Place { level: 1, .. }))
    });
    let saved = |node: u8| broken_by(&remove, |s| s.queue.processors[0].saved[1] = node);
    assert_eq!(saved(3), ["SavedBefore"]);
    assert_eq!(saved(1), ["SavedFresh"]);
    let lower = |s: &mut State| s.queue.processors[0].saved[0] = 3;
    assert_eq!(broken_by(&remove, lower), Vec::<&str>::new());

    remove.step_to(0, |stage| matches!(stage, Stage::X1Read(..)));
    assert_eq!(remove.queue.processors[0].stage, read(2));
    assert_eq!(broken(&remove, read(3)), ["PlaceBefore"]);
    assert_eq!(broken(&remove, read(1)), ["PlaceFresh"]);
    assert_eq!(broken(&remove, read(0)), Vec::<&str>::new());
}

/// The test of the stamp, and the mark.
#[test]
fn a_found_key_broken_one_conjunct_at_a_time() {
    let (mut remove, wanted) = removing();
    let at = |node: u8| Place { node, level: 1 };
    let broken = |state: &State, stage: Stage| broken_by(state, |s| put_stage(s, stage));
    remove.step_to(0, |stage| matches!(stage, Stage::X2Test(..)));
    assert_eq!(broken(&remove, Stage::X2Test(wanted, at(2))), ["XKey"]);
    assert_eq!(broken(&remove, Stage::X2Test(wanted, at(0))), ["XKey"]);
    let early = Stage::X3Mark(wanted, at(3));
    assert_eq!(broken(&remove, early), Vec::<&str>::new());
    remove.step_to(0, |stage| matches!(stage, Stage::X3Mark(..)));
    assert_eq!(broken(&remove, Stage::X3Mark(wanted, at(2))), ["XKey"]);
}

/// What is open after the mark.
#[test]
fn an_entry_that_is_taken_back_broken_one_conjunct_at_a_time() {
    let (mut remove, wanted) = removing();
    let broken = |state: &State, stage: Stage| broken_by(state, |s| put_stage(s, stage));
    remove.step_to(0, |stage| matches!(stage, Stage::Search(..)));
    let start = Place { node: 0, level: 2 };
    let handing = Stage::Search(Operation::Removal(Job::HandOut), start);
    assert_eq!(broken(&remove, handing), ["BookOpen"]);
    let Open::Remove {
        begin, due, ticket, ..
    } = remove.book.open[0]
    else {
        panic!("a Remove is open");
    };
    let open = |open: Open| broken_by(&remove, |s| s.book.open[0] = open);
    for marked in [true, false] {
        let other = Open::Remove {
            begin,
            due: due + u32::from(marked),
            ticket,
            marked,
        };
        assert_eq!(open(other), ["BookOpen"]);
    }
    let marked = Some(ticket);
    assert_eq!(open(Open::DeleteMin { begin, marked }), ["BookOpen"]);
    let taken = |s: &mut State| {
        let i = s.book.find(wanted.ticket).expect("it is written");
        s.book.entries[i].taken_back = true;
    };
    assert_eq!(broken_by(&remove, taken), ["BookEntries", "BookRetired"]);
    remove.finish(0);
    assert_eq!(remove.book.find(wanted.ticket), None);
}

/// A Remove that would mark what is not answered.
#[test]
fn a_mark_without_a_stamp_breaks_one_conjunct() {
    let mut state = State::new();
    state.begin_insert(1, 10, 1);
    state.step_to(1, |stage| *stage == Stage::I5Stamp);
    state.call(Call::Remove {
        processor: 0,
        due: 10,
        ticket: 1,
    });
    let place = Place { node: 1, level: 1 };
    let wanted = Wanted { due: 10, ticket: 1 };
    let mark = |s: &mut State| put_stage(s, Stage::X3Mark(wanted, place));
    state.step_to(0, |stage| matches!(stage, Stage::X2Test(..)));
    assert_eq!(broken_by(&state, mark), ["X3Stamp"]);
    state.call(Call::Step { processor: 1 });
    // answered after the begin
    assert_eq!(broken_by(&state, mark), ["X3Stamp"]);
}

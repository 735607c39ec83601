//! What the tests of stated runs with a backlog, and of stated steps, share.

use darthog_reference::calls::Call;
use darthog_reference::followed::Followed;
use darthog_reference::lists::{call_of, numbers_of, run, run_inner};
use darthog_reference::queue::{fresh, Queue};
use darthog_reference::stated::lists::split;
use darthog_reference::stated::relaxed::{stated, Counted};
use darthog_reference::stated::walks::Case;

/// A queue of a stated run's sizes.
pub fn start([p, n, l]: [u32; 3]) -> Queue {
    fresh(p.into(), n.into(), l.into()).expect("the sizes are in range")
}

/// Every call of the run has the stated answer, clock and backlog, and keeps the
/// invariant.
pub fn goes_as_stated((one, spans): &Counted) {
    let what = &one.what;
    let mut followed = Followed::new(start(one.sizes));
    for (call, [code, first, second, third, clock]) in &one.turns {
        let outcome = followed.call(&call_of(*call));
        let got = outcome.map(|outcome| numbers_of(&outcome));
        let got = got.unwrap_or_else(|fault| panic!("{what}: {fault}"));
        assert_eq!(got, [*code, *first, *second, *third], "{what}, at {clock}");
        assert_eq!(followed.queue.clock, *clock, "{what}");
        let count = stated(spans, *clock);
        assert_eq!(followed.queue.backlog(), Ok(count), "{what}, at {clock}");
    }
}

/// The run's calls have the stated answers as one list too, with check 21 and
/// without.
pub fn is_answered_as_a_list((one, _): &Counted) {
    let (calls, answers) = split(&one.turns);
    let (mut told, mut inner) = (vec![9; answers.len()], vec![9; answers.len()]);
    let (mut listed, mut second) = (start(one.sizes), start(one.sizes));
    assert_eq!(run(&mut listed, &calls, &mut told), Ok(()));
    run_inner(&mut second, &calls, &mut inner);
    assert_eq!(told, answers, "{}", one.what);
    assert_eq!(inner, answers, "{}", one.what);
    assert!(listed == second, "{}", one.what);
}

/// Each step leaves the stated record and gives the stated answer; how many there
/// are of each code.
pub fn step_as_stated<const CODES: usize>(cases: Vec<Case>) -> [usize; CODES] {
    let mut codes = [0; CODES];
    for case in cases {
        let what = &case.what;
        assert!(case.queue.sound() && case.after.sound(), "{what}");
        let processor = u64::from(case.processor);
        let mut after = case.queue.clone();
        let outcome = after.call(&Call::Step { processor });
        assert_eq!(numbers_of(&outcome), case.reply, "{what}");
        assert!(after == case.after, "{what}: another record");
        codes[case.reply[0] as usize] += 1;
    }
    codes
}

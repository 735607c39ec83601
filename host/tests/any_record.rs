//! Calls on records that no run reached, with damage to some: reply and bytes
//! are the reference's, and every code of every entry occurs. Levels past L
//! hold anything; slots past P and N+1 are in no image, and so as made.

mod common;

use common::{any_call, compare, expected, seed, Counts, ALL_CODES};
use darthog_reference::any_record::any_record;
use darthog_reference::image::encode;
use darthog_reference::random::Random;

const RECORDS: u64 = 25_000;
const CALLS_EACH: u64 = 6;

#[test]
fn every_call_on_any_record_does_what_the_reference_does() {
    let mut random = Random::new(seed());
    let mut counts = Counts::default();
    for _ in 0..RECORDS {
        let mut record = any_record(&mut random);
        if random.one_in(20) {
            // check 21 refuses it
            record.clock = random.among(&[1_000_000, u32::MAX]);
        }
        let mut bytes = encode(&record);
        for _ in 0..CALLS_EACH {
            let call = any_call(&mut random, &record);
            let length = if random.one_in(50) {
                bytes.len() - 1
            } else {
                bytes.len()
            };
            compare(&bytes[..length], &call, &mut random, &mut counts);
            bytes = expected(&bytes, &call).1;
        }
    }
    counts.must_have(&ALL_CODES);
    counts.must_wait_for(8);
}

//! Request E13: the table of premises (`premises/`), checked to be what it says, on the
//! model.

mod premises;

use model::layout::*;
use premises::{broken, Answer, Side, ALIKE, NEEDED, PREMISES, ROOM};

/// The side's block, by calls on a fresh one.
fn block(side: &Side) -> Vec<u8> {
    let mut block = vec![0xA5; BLOCK_LEN];
    assert_eq!(model::fresh(&mut block), 0);
    assert_eq!(model::set(&mut block, side.limit, side.direction), 0);
    assert_eq!(model::set_image_end(&mut block, side.image_end), 0);
    for &(lo, hi, flags, node) in side.memory {
        assert_eq!(model::add(&mut block, lo, hi - lo, flags, node), 0);
    }
    for (lo, hi) in side.all_taken() {
        assert_eq!(model::reserve(&mut block, lo, hi - lo), 0);
    }
    if !side.good {
        block[ZERO_WORD_AT] = 1;
    }
    block
}

/// The number and the slip that find gives, which must be the side's.
fn found(side: &Side) -> (u32, Vec<u8>) {
    let mut slip = vec![side.slip.1; side.slip.0];
    let got = (model::find(&block(side), &side.query, &mut slip), slip);
    assert_eq!(got, side.wanted());
    got
}

#[test]
fn each_premise_is_needed() {
    for (premise, pair) in &NEEDED {
        assert_eq!(broken(pair), [*premise]);
        let [one, other] = pair.each_ref().map(found);
        assert_ne!(one, other, "{premise}");
    }
    for premise in PREMISES {
        assert!(NEEDED.iter().any(|pair| pair.0 == premise), "{premise}");
    }
}

#[test]
fn what_no_premise_names_changes_nothing() {
    for pair in &ALIKE {
        assert_eq!(broken(pair), [""; 0]);
        let [one, other] = pair.each_ref().map(found);
        assert_eq!(one, other);
        let [one, other] = pair.each_ref().map(block);
        assert_ne!(one, other);
    }
}

/// Why allocate is not included: the room of the taken table is shared.
#[test]
fn allocate_does_not_stand_alone() {
    assert_eq!(broken(&ROOM.map(|two| two.0)), [""; 0]);
    for (side, allocated) in &ROOM {
        found(side);
        let answer: Answer = *allocated;
        let before = block(side);
        let mut after = before.clone();
        let mut slip = vec![side.slip.1; side.slip.0];
        let number = model::allocate(&mut after, &side.query, &mut slip);
        assert_eq!(number, answer.err().unwrap_or(0));
        assert_eq!(slip, side.slip_after(answer));
        let mut wanted = before;
        if answer.is_ok() {
            assert_eq!(model::reserve(&mut wanted, 0x1F000, 0x1000), 0);
        }
        assert_eq!(after, wanted);
    }
}

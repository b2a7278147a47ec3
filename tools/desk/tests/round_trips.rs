//! What is read and written again is the same, over generated sheets.

mod common;

use common::{damage, good_sheet, Rng};
use desk::binary::{self, Refused};
use desk::{print, text};

fn written(sheet_text: &str) -> Vec<u8> {
    match text::read(sheet_text) {
        Ok(text) => text.bytes(),
        Err(wrong) => panic!("line {}: {}\n{sheet_text}", wrong.line, wrong.why),
    }
}

#[test]
fn a_good_sheet_read_and_written_is_itself() {
    let mut rng = Rng(1979);
    for _ in 0..3_000 {
        let bytes = good_sheet(&mut rng);
        let sheet = binary::read(&bytes).unwrap_or_else(|refused| panic!("{}", refused.why));
        let sheet_text = print::sheet(&sheet);
        assert_eq!(written(&sheet_text), bytes, "{sheet_text}");
    }
}

#[test]
fn every_step_of_four_bytes_has_a_text() {
    let items_and_operands = [0, 1, 2, 0x7F, 0x80, 0xFF];
    for kind in 0..=255 {
        for item in items_and_operands {
            for high in items_and_operands {
                for low in items_and_operands {
                    let mut bytes = vec![1, 9, 1, 0, 0, 0, 0, 1, 1, 1];
                    bytes.extend([kind, item, high, low]);
                    let sheet = binary::read(&bytes).expect("a good sheet");
                    assert_eq!(written(&print::sheet(&sheet)), bytes);
                }
            }
        }
    }
}

/// A damaged sheet is still good or is refused at its first wrong byte: what
/// stands before that place could be the beginning of a good sheet, and what
/// comes after it (and the second byte of a value) does not matter.
#[test]
fn a_damaged_sheet_is_refused_where_it_goes_wrong() {
    let mut rng = Rng(31);
    let (mut good, mut early, mut left_over, mut wrong) = (0, 0, 0, 0);
    for _ in 0..20_000 {
        let mut bytes = good_sheet(&mut rng);
        damage(&mut rng, &mut bytes);
        let Refused { number, place, .. } = match binary::read(&bytes) {
            Ok(sheet) => {
                good += 1;
                assert_eq!(written(&print::sheet(&sheet)), bytes);
                continue;
            }
            Err(refused) => refused,
        };
        assert_eq!(number, 13);
        match binary::read(&bytes[..place]) {
            Ok(_) => left_over += 1,
            Err(before) => assert_eq!((before.number, before.place), (13, place)),
        }
        if place == bytes.len() {
            early += 1;
        } else {
            wrong += 1;
            let mut after = bytes.clone();
            after.truncate(place + 2);
            after.extend([rng.byte(), rng.byte()]);
            let refused = binary::read(&after).expect_err("still wrong");
            assert_eq!((refused.number, refused.place), (13, place));
        }
    }
    // Each way to end came up often enough to mean something.
    assert!(
        good.min(early).min(left_over).min(wrong) > 1_000,
        "{good} {early} {left_over} {wrong}"
    );
}

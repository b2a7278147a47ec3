//! Each way in which a sheet can be wrong: its number, its place and a sentence.

use desk::binary::read;

fn refused(bytes: &[u8], number: u8, place: usize, why: &str) {
    let refused = read(bytes).expect_err(why);
    assert_eq!(
        (refused.number, refused.place, &refused.why[..]),
        (number, place, why)
    );
}

#[test]
fn too_long() {
    refused(
        &[0; 32_769],
        14,
        0,
        "the sheet has 32769 bytes, and 32768 are the most",
    );
    refused(
        &[0; 32_768],
        13,
        0,
        "the count of districts is 0, not 1 to 8",
    );
}

#[test]
fn districts() {
    refused(&[9], 13, 0, "the count of districts is 9, not 1 to 8");
    refused(&[1, 0], 13, 1, "the code of district 0 is 0, not 1 to 255");
    refused(
        &[2, 7, 7],
        13,
        2,
        "the code of district 1 is 7, not over 7, the code before it",
    );
    refused(
        &[2, 7, 0],
        13,
        2,
        "the code of district 1 is 0, not 1 to 255",
    );
}

#[test]
fn items() {
    refused(&[1, 7, 0], 13, 2, "the count of items is 0, not 1 to 32");
    refused(&[1, 7, 33], 13, 2, "the count of items is 33, not 1 to 32");
    refused(
        &[1, 7, 1, 1],
        13,
        3,
        "item 0 is in district 1, and the last district is 0",
    );
    refused(
        &[1, 7, 1, 0, 0x27, 0x10],
        13,
        4,
        "the value of item 0 is 10000, not from -9999 to 9999",
    );
    refused(
        &[1, 7, 1, 0, 0xD8, 0xF0],
        13,
        4,
        "the value of item 0 is -10000, not from -9999 to 9999",
    );
}

#[test]
fn events() {
    let sheet = |events: &[u8]| [&[1, 7, 1, 0, 0, 0], events].concat();
    refused(
        &sheet(&[0, 1, 8, 0]),
        13,
        8,
        "event 1 is of kind 08, not 01 to 07",
    );
    refused(
        &sheet(&[0, 2, 7, 0, 0]),
        13,
        10,
        "event 2 is of kind 00, not 01 to 07",
    );
    refused(
        &sheet(&[0, 0, 7]),
        13,
        8,
        "a byte is left over after the last event",
    );
    refused(
        &sheet(&[0, 1, 7, 0, 7, 0]),
        13,
        10,
        "2 bytes are left over after the last event",
    );
}

#[test]
fn early_ends() {
    // Two districts, one item, then a begin of one step, a ready and a show.
    let sheet = [
        2, 7, 8, 1, 0, 0, 5, 0, 3, 1, 1, 2, 0, 0, 1, 2, 0, 1, 0, 7, 0,
    ];
    assert!(read(&sheet).is_ok());
    let mut ends = vec![
        "at the count of districts",
        "at the code of district 0",
        "at the code of district 1",
    ];
    ends.extend(["at the count of items", "at the district of item 0"]);
    ends.extend(["at the value of item 0"; 2]);
    ends.extend(["at the count of events"; 2]);
    ends.extend(["in event 1 of 3"; 6]);
    ends.extend(["in event 2 of 3"; 4]);
    ends.extend(["in event 3 of 3"; 2]);
    assert_eq!(ends.len(), sheet.len());
    for (length, end) in ends.iter().enumerate() {
        refused(
            &sheet[..length],
            13,
            length,
            &format!("the sheet ends early, {end}"),
        );
    }
}

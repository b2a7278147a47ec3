//! Each kind of wrong line gets its message, with the right line number.

use desk::text::{read, Wrong};

/// Eight good lines; the line under test is the ninth.
const OPENING: &str = "\
# Saturday
district Harbor 10
district Mill 11

item docks at Harbor = 5
item docks at Mill = 2
item bikes at Mill = 0
show bikes
";

fn wrong(text: &str) -> (usize, String) {
    match read(text) {
        Err(Wrong { line, why }) => (line, why),
        Ok(_) => panic!("this text is good: {text}"),
    }
}

fn ninth(line: &str, why: &str) {
    let text = format!("{OPENING}{line}\nshow 0\n");
    assert_eq!(wrong(&text), (9, why.to_string()), "{line}");
}

fn at(line: usize, text: &str, why: &str) {
    assert_eq!(wrong(text), (line, why.to_string()), "{text}");
}

#[test]
fn lines_that_are_not_in_the_grammar() {
    ninth(
        "book 1 Harbor",
        "a line starts with district, item, begin, ready, give up, complete, abort, hear, \
         show or bytes, not with book",
    );
    ninth("= 5", "a line starts with district, item, begin, ready, give up, complete, abort, hear, show or bytes, not with =");
    let forms = [
        ("district Harbor", "district Harbor 10"),
        ("item docks Harbor 5", "item docks at Harbor = 5"),
        ("ready 1", "ready 1 Harbor"),
        ("ready 1 Harbor Mill", "ready 1 Harbor"),
        ("give 1 Harbor", "give up 1 Harbor"),
        ("complete", "complete 1"),
        ("complete 1 Harbor", "complete 1"),
        ("abort 1 2", "abort 1"),
        ("hear Harbor", "hear 1 Harbor"),
    ];
    for (line, form) in forms {
        ninth(line, &format!("this line should look like: {form}"));
    }
}

#[test]
fn steps_that_are_not_in_the_grammar() {
    ninth(
        "begin take 1 from bikes",
        "a step starts with need, add, set, copy or step, not with take",
    );
    let forms = [
        ("need 1 of bikes", "need 1 in Harbor docks"),
        ("add bikes", "add -1 to Harbor docks"),
        ("set bikes 5", "set Harbor docks to 5"),
        ("copy bikes", "copy Mill docks to Harbor docks"),
        ("step 09 01", "step 02 00 FFFF"),
    ];
    for (step, form) in forms {
        let why = format!("this step should look like: {form}");
        ninth(&format!("begin {step}"), &why);
        ninth(&format!("begin add 1 to bikes; {step}"), &why);
    }
    ninth(
        "begin add 1 to bikes;",
        "a step is missing before or after ;",
    );
    ninth(
        "begin ; add 1 to bikes",
        "a step is missing before or after ;",
    );
    ninth("begin step 9 01 0000", "2 hex digits together are wanted, not `9`");
    ninth("begin step 09 01 00", "4 hex digits together are wanted, not `00`");
    ninth("begin step 09 +1 0000", "2 hex digits together are wanted, not `+1`");
}

#[test]
fn names_that_nobody_has() {
    ninth("ready 1 Mil", "no district is named Mil");
    ninth("hear 1 \"5\"", "no district is named 5");
    ninth("show boats", "no item is named boats");
    ninth("show Mil docks", "no district is named Mil");
    ninth("show Harbor bikes", "no item at Harbor is named bikes");
    ninth("begin copy bikes to boats", "no item is named boats");
    ninth("begin copy boats to bikes", "no item is named boats");
}

#[test]
fn items_that_are_not_one_item() {
    ninth(
        "show docks",
        "more than one district has docks: say which, for example Harbor docks",
    );
    ninth("show", "an item is missing");
    ninth("begin add 1 to", "an item is missing");
    ninth("begin set to 5", "an item is missing");
    ninth(
        "show the Mill docks",
        "an item is a name, a district and a name, or a number, not: the Mill docks",
    );
}

#[test]
fn numbers_that_do_not_fit() {
    ninth(
        "ready Mill 1",
        "a hold is a number from 0 to 65535, not Mill",
    );
    ninth(
        "complete 65536",
        "a hold is a number from 0 to 65535, not 65536",
    );
    ninth("abort -1", "a hold is a number from 0 to 65535, not -1");
    ninth(
        "hear 1 256",
        "a district is a name or a number from 0 to 255, not 256",
    );
    ninth(
        "show 256",
        "an item is a name or a number from 0 to 255, not 256",
    );
    ninth(
        "begin add 32768 to bikes",
        "a step takes a number from -32768 to 32767, not 32768",
    );
    ninth(
        "begin need 99999999999999999999 in bikes",
        "a step takes a number from -32768 to 32767, not 99999999999999999999",
    );
    ninth(
        "begin set bikes to \"5\"",
        "a step takes a number from -32768 to 32767, not \"5\"",
    );
}

#[test]
fn quotes() {
    ninth("show \"bikes", "a quoted name has no closing quote");
    ninth("show \"\"", "a name in quotes is empty");
}

#[test]
fn districts() {
    at(
        1,
        "district Harbor 0",
        "a district's code is a number from 1 to 255, not 0",
    );
    at(
        1,
        "district Harbor 256",
        "a district's code is a number from 1 to 255, not 256",
    );
    at(
        1,
        "district Harbor x",
        "a district's code is a number from 1 to 255, not x",
    );
    at(
        2,
        "district Harbor 10\ndistrict Mill 10",
        "codes rise from line to line: 10 is not over 10",
    );
    at(
        2,
        "district Harbor 10\ndistrict Harbor 11",
        "there is a district named Harbor already",
    );
    at(1, "district 5 10", "to be a name, 5 has to stand in quotes");
    at(
        1,
        "district to 10",
        "to be a name, to has to stand in quotes",
    );
    at(1, "district = 10", "a name is missing before =");
    let nine: String = (1..=9)
        .map(|code| format!("district d{code} {code}\n"))
        .collect();
    at(9, &nine, "8 districts are the most");
}

#[test]
fn items() {
    let item = |line: &str, why| at(2, &format!("district Harbor 10\n{line}"), why);
    item(
        "item docks at Harbor = 10000",
        "an item's value is a number from -9999 to 9999, not 10000",
    );
    item(
        "item docks at Harbor = -10000",
        "an item's value is a number from -9999 to 9999, not -10000",
    );
    item(
        "item docks at Harbor = five",
        "an item's value is a number from -9999 to 9999, not five",
    );
    item("item docks at Mil = 5", "no district is named Mil");
    item("item docks at 1 = 5", "there is no district 1");
    item(
        "item 7 at Harbor = 5",
        "to be a name, 7 has to stand in quotes",
    );
    at(
        3,
        "district Harbor 10\nitem docks at Harbor = 5\nitem docks at 0 = 5",
        "there is an item named docks at Harbor already",
    );
    let many: String = (0..33).map(|n| format!("item i{n} at d = 0\n")).collect();
    at(
        34,
        &format!("district d 1\n{many}"),
        "32 items are the most",
    );
}

#[test]
fn order_of_the_lines() {
    ninth("district Quay 12", "districts stand before the first item");
    ninth(
        "item boats at Mill = 1",
        "items stand before the first event",
    );
    at(
        3,
        "district a 1\nitem i at a = 0\ndistrict b 2",
        "districts stand before the first item",
    );
    at(1, "show 0", "a sheet needs at least one district");
    at(2, "district a 1\nshow 0", "a sheet needs at least one item");
    at(1, "", "a sheet needs at least one district");
    at(
        3,
        "district a 1\n\n# no items\n",
        "a sheet needs at least one item",
    );
}

#[test]
fn sheets_that_get_too_long() {
    let begin = |steps: usize| format!("begin {}", vec!["step 00 00 0000"; steps].join("; "));
    ninth(
        &begin(256),
        "a begin with 256 steps: 255 are the most a sheet can hold",
    );
    // 1 + 1 and 1 + 3 bytes before the 2 of the count, then 2 for each show:
    // 16,380 shows make 32,768 bytes.
    let shows = |count| {
        format!(
            "district a 1\nitem i at a = 0\n{}",
            "show i\n".repeat(count)
        )
    };
    assert_eq!(
        read(&shows(16_380)).map(|text| text.bytes().len()),
        Ok(32_768)
    );
    at(
        2 + 16_381,
        &shows(16_382),
        "the sheet gets longer than 32768 bytes here",
    );
}

#[test]
fn bytes_lines() {
    at(1, "bytes 02 A", "2 hex digits together are wanted, not `A`");
    at(2, "bytes 02\nbytes 0G", "2 hex digits together are wanted, not `0G`");
    at(
        2,
        "bytes 02\nshow 0",
        "a text with bytes lines has no other lines",
    );
    ninth("bytes 02", "a text with bytes lines has no other lines");
}

//! What the desk reads beside each answer number, 0 to 16.

use desk::beside::{of_refused, of_sheet, Beside};
use desk::binary;
use desk::text::{read, Text};

/// The words beside the answer to one event.
fn words(event: &str, answer: &str) -> String {
    let text = format!(
        "district Harbor 10\ndistrict \"Old Mill\" 11\n\
         item docks at Harbor = 5\nitem docks at 1 = 5\nitem bikes at 1 = 5\n{event}\n"
    );
    let Ok(Text::Sheet(sheet, names)) = read(&text) else {
        panic!("{event}");
    };
    let output = format!("1 {answer}\nend\n");
    match of_sheet(&sheet, &names, &output) {
        Beside { text, misfit: None } => {
            let line = text.strip_suffix("\nend\n").expect("an end");
            let rest = line.strip_prefix(&format!("1 {answer}   ")).expect(line);
            rest.to_string()
        }
        Beside { misfit, .. } => format!("MISFIT {}", misfit.unwrap_or_default()),
    }
}

fn says(event: &str, answer: &str, said: &str) {
    assert_eq!(words(event, answer), format!("{event}: {said}"));
}

#[test]
fn answer_0() {
    says("begin add 1 to bikes", "0 1 1", "hold 1 begins, granted");
    says(
        "begin add 1 to bikes",
        "0 7 0",
        "hold 7 begins, but it is declined",
    );
    says(
        "begin add 1 to bikes",
        "0 65535 2",
        "hold 65535 begins, granted or declined as other holds turn out",
    );
    says("ready 1 Harbor", "0", "Harbor waits to hear of hold 1");
    says(
        "give up 1 \"Old Mill\"",
        "0",
        "\"Old Mill\" drops hold 1, which can only be aborted",
    );
    says("complete 3", "0", "hold 3 is completed");
    says("abort 3", "0", "hold 3 is aborted");
    says("hear 3 Harbor", "0", "Harbor knows the outcome of hold 3");
    says("show Harbor docks", "0 1 -4:*", "-4");
    says(
        "show bikes",
        "0 2 4:T1 5:!T1",
        "4 if hold 1 completes, 5 if it does not",
    );
    says(
        "show bikes",
        "0 2 4:!T1 5:T1",
        "4 if hold 1 does not complete, 5 if it does",
    );
}

#[test]
fn giving_up_after_ready_is_told_otherwise() {
    let text = "district a 1\ndistrict b 2\nitem i at a = 0\n\
                ready 1 a\nready 2 b\ngive up 1 a\ngive up 2 a\ngive up 1 b\ngive up 2 b\n";
    let Ok(Text::Sheet(sheet, names)) = read(text) else {
        panic!("a good text");
    };
    // Hold 2 was not ready at b after all.
    let output = "1 0\n2 9\n3 0\n4 0\n5 0\n6 0\nend\n";
    let beside = "\
1 0   ready 1 a: a waits to hear of hold 1
2 9   ready 2 b: refused, b is not computing on hold 2
3 0   give up 1 a: a goes on with both outcomes of hold 1
4 0   give up 2 a: a drops hold 2, which can only be aborted
5 0   give up 1 b: b drops hold 1, which can only be aborted
6 0   give up 2 b: b drops hold 2, which can only be aborted
end
";
    assert_eq!(of_sheet(&sheet, &names, output).text, beside);
}

#[test]
fn answers_1_to_16() {
    says("ready 1 2", "1", "refused, there is no district 2");
    says("give up 1 2", "1", "refused, there is no district 2");
    says("hear 1 255", "1", "refused, there is no district 255");
    says("show 3", "2", "refused, there is no item 3");
    says(
        "begin add 1 to bikes; add 1 to 3",
        "2",
        "refused, there is no item 3",
    );
    says(
        "begin copy 40 to bikes",
        "2",
        "refused, there is no item 40",
    );
    says("begin step 04 00 FFFF", "2", "refused, there is no item -1");
    says("begin", "3", "refused, there is no step");
    let nine = ["add 1 to bikes"; 9].join("; ");
    says(
        &format!("begin {nine}"),
        "3",
        "refused, 9 steps are more than 8",
    );
    says(
        "begin add 1 to bikes; step 05 00 0000",
        "3",
        "refused, step 2 is of unknown kind 05",
    );
    says(
        "begin set bikes to -10000",
        "3",
        "refused, step 1 has -10000, not from -9999 to 9999",
    );
    for event in [
        "ready 9 Harbor",
        "give up 9 Harbor",
        "complete 9",
        "abort 9",
        "hear 9 Harbor",
    ] {
        says(event, "4", "refused, no open hold has number 9");
    }
    says(
        "begin add 1 to bikes",
        "5",
        "refused, a district it touches is busy",
    );
    says(
        "begin add 1 to bikes",
        "6",
        "refused, six holds are open already",
    );
    says(
        "begin add 1 to bikes",
        "7",
        "refused, the last number, 65535, has been given",
    );
    says(
        "begin add 1 to bikes",
        "8",
        "refused, an item would have more than 8 values",
    );
    says(
        "ready 1 Harbor",
        "9",
        "refused, Harbor is not computing on hold 1",
    );
    says(
        "give up 1 Harbor",
        "9",
        "refused, Harbor is not busy on hold 1",
    );
    says("complete 1", "10", "refused, hold 1 is decided already");
    says("abort 1", "10", "refused, hold 1 is decided already");
    says(
        "complete 1",
        "11",
        "refused, a district that hold 1 touches has not reported ready",
    );
    says("hear 1 Harbor", "12", "refused, hold 1 is not decided yet");
    says("abort 1", "15", "refused, the store's book is not sound");
    says("show bikes", "16", "refused, the line is too long to print");
}

#[test]
fn answers_13_and_14() {
    let beside = |bytes: &[u8], output: &str| of_refused(&binary::read(bytes).unwrap_err(), output);
    let fits = |text: &str| Beside {
        text: text.to_string(),
        misfit: None,
    };
    assert_eq!(
        beside(&[9], "sheet 13 0\n"),
        fits("sheet 13 0   refused at byte 0, counted from 0: the count of districts is 9, not 1 to 8\n")
    );
    assert_eq!(
        beside(&[1; 40_000], "sheet 14 0\n"),
        fits("sheet 14 0   refused at byte 0, counted from 0: the sheet has 40000 bytes, and 32768 are the most\n")
    );
}

#[test]
fn conditions() {
    let shows = |pairs: &str, said| says("show bikes", &format!("0 {pairs}"), said);
    shows(
        "4 0:T1&T2 1:!T1&T2 4:T1&!T2 5:!T1&!T2",
        "0 if holds 1 and 2 complete, 1 if hold 2 completes and hold 1 does not, \
         4 if hold 1 completes and hold 2 does not, 5 if neither hold 1 nor hold 2 completes",
    );
    shows(
        "2 3:T3&T5 4:!T3|!T5",
        "3 if holds 3 and 5 complete; 4 if hold 3 does not complete, or hold 5 does not complete",
    );
    shows(
        "2 0:T1&T2|!T1&T3|T2&T3 1:T1&!T2|!T1&!T3|!T2&!T3",
        "0 if holds 1 and 2 complete, or hold 3 completes and hold 1 does not, or holds 2 and 3 complete; \
         1 if hold 1 completes and hold 2 does not, or neither hold 1 nor hold 3 completes, \
         or neither hold 2 nor hold 3 completes",
    );
    shows(
        "3 0:T9&!T4&!T7 1:T9&T4&T7 2:!T9&!T4&!T7",
        "0 if hold 9 completes and neither hold 4 nor hold 7 does; 1 if holds 9, 4 and 7 complete; \
         2 if none of holds 9, 4 and 7 completes",
    );
    // Not two ways of one hold.
    shows(
        "2 0:T1 1:!T2",
        "0 if hold 1 completes, 1 if hold 2 does not complete",
    );
}

#[test]
fn the_words_stand_in_a_column_beside_all_but_long_lines() {
    let text = "district a 1\nitem i at a = 0\nshow i\nshow i\nabort 1\n";
    let Ok(Text::Sheet(sheet, names)) = read(text) else {
        panic!("a good text");
    };
    let output = "1 0 2 0:T1 1:!T1\n2 0 3 0:T1&T2 1:!T1&T2 4:!T2\n3 4\nend\n";
    let beside = "\
1 0 2 0:T1 1:!T1   show i: 0 if hold 1 completes, 1 if it does not
2 0 3 0:T1&T2 1:!T1&T2 4:!T2   show i: 0 if holds 1 and 2 complete, \
        1 if hold 2 completes and hold 1 does not, 4 if hold 2 does not complete
3 4                abort 1: refused, no open hold has number 1
end
";
    assert_eq!(of_sheet(&sheet, &names, output).text, beside);
}

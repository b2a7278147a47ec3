//! Output that does not fit its sheet is told as such, and where.

use desk::beside::{of_refused, of_sheet};
use desk::binary;
use desk::text::{read, Text};

/// What is wrong, for a begin, a ready and a show.
fn misfit(output: &str) -> Option<String> {
    let text = "district Mill 1\nitem docks at Mill = 5\n\
                begin add 1 to docks\nready 1 Mill\nshow docks\n";
    let Ok(Text::Sheet(sheet, names)) = read(text) else {
        panic!();
    };
    of_sheet(&sheet, &names, output).misfit
}

#[test]
fn the_output_that_fits() {
    assert_eq!(misfit("1 0 1 1\n2 0\n3 0 1 5:*\nend\n"), None);
    assert_eq!(misfit("1 5\n2 4\n3 15\nend\n"), None);
}

#[test]
fn lines_that_are_no_answers() {
    let first = [
        "",
        "1",
        "1 ",
        "1 0",
        "1 0 1",
        "1 0 1 3",
        "1 0 1 1 1",
        "2 0 1 1",
        "01 0 1 1",
        "1 0  1 1",
        "1 0 1 1\r",
    ];
    // No answer of a begin, and two that this sheet cannot give.
    let refusals = ["1 1", "1 4", "1 9", "1 17", "1 5 1", "1 2", "1 3"];
    for line in first.into_iter().chain(refusals) {
        let expected =
            format!("line 1 should answer event 1, begin add 1 to docks, but line 1 is '{line}'");
        assert_eq!(
            misfit(&format!("{line}\n2 0\n3 0 1 5:*\nend\n")),
            Some(expected)
        );
    }
    for line in ["2 0 0", "2 8", "2 13", "2 1"] {
        let expected =
            format!("line 2 should answer event 2, ready 1 Mill, but line 2 is '{line}'");
        assert_eq!(
            misfit(&format!("1 0 1 1\n{line}\n3 0 1 5:*\nend\n")),
            Some(expected)
        );
    }
    let pairs = [
        "0",
        "1",
        "2 5:*",
        "1 5:T1 6:!T1",
        "1 5:T1",
        "2 5:* 6:T1",
        "2 5:T1 5:!T1",
        "2 6:T1 5:!T1",
        "9 1:T1 2:T1 3:T1 4:T1 5:T1 6:T1 7:T1 8:T1 9:T1",
        "1 5",
        "1 5:",
        "1 5:T",
        "1 5:T0",
        "1 5:T01",
        "1 5:t1",
        "1 5:T1&",
        "1 5:T1||T2",
        "1 5:*|T1",
        "1 x:*",
        "1 05:*",
    ];
    for pairs in pairs {
        let line = format!("3 0 {pairs}");
        let expected = format!("line 3 should answer event 3, show docks, but line 3 is '{line}'");
        assert_eq!(
            misfit(&format!("1 0 1 1\n2 0\n{line}\nend\n")),
            Some(expected)
        );
    }
    for line in ["3 2", "3 4", "3 14"] {
        let expected = format!("line 3 should answer event 3, show docks, but line 3 is '{line}'");
        assert_eq!(
            misfit(&format!("1 0 1 1\n2 0\n{line}\nend\n")),
            Some(expected)
        );
    }
}

#[test]
fn lines_that_are_missing_or_too_many() {
    let says = |output: &str, why: &str| assert_eq!(misfit(output).as_deref(), Some(why));
    says(
        "",
        "line 1 should answer event 1, begin add 1 to docks, but the output ends before line 1",
    );
    says(
        "1 0 1 1\n",
        "line 2 should answer event 2, ready 1 Mill, but the output ends before line 2",
    );
    says(
        "1 0 1 1\nend\n",
        "line 2 should answer event 2, ready 1 Mill, but line 2 is 'end'",
    );
    says(
        "1 0 1 1\n2 0\n3 0 1 5:*\n",
        "after the last event comes the line 'end', but the output ends before line 4",
    );
    says(
        "1 0 1 1\n2 0\n3 0 1 5:*\n4 0\n",
        "after the last event comes the line 'end', but line 4 is '4 0'",
    );
    says(
        "1 0 1 1\n2 0\n3 0 1 5:*\nend\nend\n",
        "a line follows that has no place here: 'end'",
    );
    says(
        "1 0 1 1\n2 0\n3 0 1 5:*\nend",
        "the last line has no line end",
    );
    says(
        "sheet 13 0\n",
        "line 1 should answer event 1, begin add 1 to docks, but line 1 is 'sheet 13 0'",
    );
}

#[test]
fn sheets_that_have_to_be_refused() {
    let refused = binary::read(&[9]).unwrap_err();
    let says = |output: &str, why: &str| {
        assert_eq!(of_refused(&refused, output).misfit.as_deref(), Some(why))
    };
    let line =
        "this sheet gets the line 'sheet 13 0' (the count of districts is 9, not 1 to 8), but ";
    says("end\n", &format!("{line}line 1 is 'end'"));
    says("sheet 13 1\n", &format!("{line}line 1 is 'sheet 13 1'"));
    says("", &format!("{line}the output ends before line 1"));
    says(
        "sheet 13 0\nend\n",
        "a line follows that has no place here: 'end'",
    );
}

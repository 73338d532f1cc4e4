//! What is printed of the named cases of request M-111, line by line, written by hand from
//! document 01's table.

mod common;

use common::{printed, probed};

/// Size and first bad offset of each message of `each-bad-field-alone`.
const ALONE: [&str; 24] = [
    "39,4", "39,28", "39,32", // 100
    "35,4", "35,28", "35,32", "35,33", // 101
    "25,4",  // 102
    "42,4", "42,32", "42,36", // 103
    "42,4", "42,36", "42,40", // 104
    "73,8",  // 105
    "33,4", "33,24", "33,28", // 110
    "29,4",  // 111
    "20,4",  // 112
    "24,4",  // 113
    "17,4",  // 114
    "20,8",  // 32
    "46,8",  // 34
];

/// The same of `several-bad-fields`: sets without bad nanoseconds, then sets with them.
const SEVERAL: [&str; 27] = [
    "39,28", "39,4", "39,4", "39,4", // 100
    "35,28", "35,32", "35,28", "35,28", // 101
    "35,4", "35,4", "35,4", "35,4", "35,4", "35,4", "35,4", // 101
    "42,32", "42,4", "42,4", "42,4", // 103
    "42,36", "42,4", "42,4", "42,4", // 104
    "33,24", "33,4", "33,4", "33,4", // 110
];

/// Calls on ABC that leave its book and record as they were.
fn idle(lines: &str) -> String {
    format!("G,0\n{lines}Q,0,,,,\nV,0,0,1\n")
}

fn offset(row: &str) -> &str {
    row.rsplit(',').next().expect("a row has an offset")
}

#[test]
fn a_read_and_a_step_end_with_the_offset() {
    for (name, rows) in [
        ("each-bad-field-alone", &ALONE[..]),
        ("several-bad-fields", &SEVERAL),
    ] {
        let lines = rows.iter().map(|row| format!("D,4,{row}\nS,4,{row}\n"));
        assert_eq!(probed(name), idle(&lines.collect::<String>()), "{name}");
    }
}

#[test]
fn a_refusal_on_the_page_ends_with_the_offset() {
    let four_digits = ALONE.repeat(42);
    for (name, rows) in [
        ("each-bad-field-alone", &ALONE[..]),
        ("several-bad-fields", &SEVERAL),
        ("bad-fields-at-places-of-four-digits", &four_digits),
    ] {
        let lines = (1..).zip(rows.iter().map(|row| offset(row)));
        let lines: String = lines
            .map(|(place, offset)| format!("R,4,{place},{offset}\n"))
            .collect();
        assert_eq!(printed(name), format!("{lines}E,1\nQ,,,,\n"), "{name}");
    }
}

#[test]
fn a_write_and_a_line_of_bytes_that_do_not_read() {
    let rows = ALONE.iter().chain(&["39,32"]).map(|row| offset(row));
    let lines = rows.map(|offset| format!("W,4,{offset}\nL,4,{offset}\n"));
    assert_eq!(
        probed("a-bad-field-before-writing"),
        idle(&lines.collect::<String>())
    );
}

#[test]
fn the_writer_s_and_the_line_s_own_4() {
    // 100, 101, 103, 104, 102, 105, 110, 111, 112, 113, 114, 34, 32
    let lines = "\
W,4,0,aaaa,4
L,4,0,aaaa,4
W,4,0,aaaa,4
L,3,0,aaaa
W,4,0,aaaa,4
L,3,0,aaaa
W,4,0,aaaa,4
L,3,0,aaaa
W,4,0,aaaa,4
L,3,0,aaaa
W,4,0,aaaa,8
L,3,0,aaaa
W,4,0,aaaa,4
L,3,0,aaaa
W,4,0,aaaa,4
L,4,0,aaaa,4
W,4,0,aaaa,4
L,3,0,aaaa
W,4,0,aaaa,4
L,3,0,aaaa
W,4,0,aaaa,4
L,3,0,aaaa
W,4,0,aaaa,8
L,3,0,aaaa
W,4,0,aaaa,8
L,3,0,aaaa
";
    assert_eq!(probed("a-bad-field-in-writing"), idle(lines));
}

#[test]
fn no_other_answer_has_an_offset() {
    let answers = [
        ("S,2,40", "D,2,40"),
        ("S,3,39", "D,3,39"),
        ("S,5,39", "D,0,39"),
        ("S,4,39,32", "D,4,39,32"),
        ("S,6,39", "D,0,39"),
        ("S,0,39", "D,0,39"),
        ("S,7,39", "D,0,39"),
        ("S,8,39", "D,0,39"),
        ("S,0,20", "D,0,20"),
        ("S,9,25", "D,0,25"),
        ("S,1,0", "D,1,0"),
    ];
    let lines: String = answers
        .map(|(step, read)| format!("S,4,39,32\n{step}\nD,4,39,32\n{read}\n"))
        .concat();
    assert_eq!(
        probed("no-offset-with-another-answer"),
        format!("G,0\n{lines}Q,8,,,,\nV,0,0,0\n")
    );
    let page = "\
R,4,1,32
R,2,2
R,4,3,32
R,3,4
R,4,5,32
R,5,6
R,4,7,32
R,4,8,32
R,4,9,32
R,6,10
R,4,11,32
100,12,09:30:00.000000125,ABC,1,1,0.1000,10,B,FIRM1,0
R,4,13,32
R,7,14
R,4,15,32
R,8,16
R,4,17,32
R,4,19,32
R,9,20
R,4,21,32
E,1
Q,8
";
    assert_eq!(printed("no-offset-with-another-answer"), page);
}

#[test]
fn a_bad_field_counts_as_a_lost_message() {
    let page = "\
100,1,09:30:00.000000125,ABC,1,1,0.1000,10,B,FIRM1,0
R,4,2,33
R,7,3
R,8,4
R,4,5,36
R,4,6,8
R,8,7
R,4,9,24
100,10,09:30:00.000000125,ABC,5,4,0.1000,40,B,FIRM1,0
E,1
Q,0.1000,40,,
";
    assert_eq!(printed("a-bad-field-is-a-lost-message"), page);
}

#[test]
fn the_offset_counts_from_the_start_of_the_message() {
    let lines = "\
D,4,39,32
S,4,39,32
D,4,59,8
S,4,59,8
D,4,94,32
S,4,94,32
X,1,94
";
    assert_eq!(probed("an-offset-is-no-position"), idle(lines));
    let page = "\
R,3,1
R,4,2,32
100,3,09:30:00.000000125,ABC,1,1,0.1000,10,B,FIRM1,0
E,1
Q,0.1000,10,,
";
    assert_eq!(printed("a-bad-field-across-the-part"), page);
}

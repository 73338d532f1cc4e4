//! What is printed of the named cases of request M-107, line by line, written by hand from document
//! 01's table and source 001's lists.

mod common;

use common::{printed, probed};

/// Size and first bad offset of each message of `each-bad-condition-alone`.
const ALONE: [&str; 8] = [
    "42,38", "42,39", "42,40", "42,41", // 103
    "33,29", "33,30", "33,31", "33,32", // 110
];

/// The same of `several-bad-conditions`: sets of two, of three, and all four.
const SEVERAL: [&str; 22] = [
    "42,38", "42,38", "42,38", "42,39", "42,39", "42,40", // 103, two
    "42,38", "42,38", "42,38", "42,39", "42,38", // 103, three and four
    "33,29", "33,29", "33,29", "33,30", "33,30", "33,31", // 110, two
    "33,29", "33,29", "33,29", "33,30", "33,29", // 110, three and four
];

/// The same of `a-bad-condition-behind-bad-fields`: nanoseconds, volume and printable, each alone,
/// then sets of two, then all three.
const BEHIND: [&str; 14] = [
    "42,4", "42,32", "42,36", "42,4", "42,4", "42,32", "42,4", // 103
    "33,4", "33,24", "33,28", "33,4", "33,4", "33,24", "33,4", // 110
];

/// Calls on ABC that leave its book and record as they were.
fn idle(lines: &str) -> String {
    format!("G,0\n{lines}Q,0,,,,\nV,0,0,1\n")
}

fn offset(row: &str) -> &str {
    row.rsplit(',').next().expect("a row has an offset")
}

#[test]
fn a_read_a_step_and_the_page_name_the_first_bad_condition() {
    let four_digits = ALONE.repeat(126);
    for (name, rows) in [
        ("each-bad-condition-alone", &ALONE[..]),
        ("a-bad-condition-of-what-is-not-printed", &ALONE),
        ("several-bad-conditions", &SEVERAL),
        ("a-bad-condition-behind-bad-fields", &BEHIND),
        ("bad-conditions-at-places-of-four-digits", &four_digits),
    ] {
        let places = (1..).zip(rows.iter().map(|row| offset(row)));
        let page: String = places
            .map(|(place, offset)| format!("R,4,{place},{offset}\n"))
            .collect();
        assert_eq!(printed(name), format!("{page}E,1\nQ,,,,\n"), "{name}");
        if name != "bad-conditions-at-places-of-four-digits" {
            let lines = rows.iter().map(|row| format!("D,4,{row}\nS,4,{row}\n"));
            assert_eq!(probed(name), idle(&lines.collect::<String>()), "{name}");
        }
    }
}

#[test]
fn size_and_type_come_before_conditions_and_the_symbol_after_them() {
    let answers = [
        "2,41", "2,43", "3,42", "4,42,41", "4,42,41", "4,42,41", // 103
        "2,32", "2,34", "3,33", "4,33,32", "4,33,32", "4,33,32", // 110
        "1,0",
    ];
    let lines = answers.map(|answer| format!("D,{answer}\nS,{answer}\n"));
    assert_eq!(
        probed("a-bad-condition-and-other-checks"),
        idle(&lines.concat())
    );
}

#[test]
fn a_refused_trade_changes_nothing_and_uses_no_number() {
    for (kind, refused) in [("103", "S,4,42,41"), ("110", "S,4,33,29")] {
        let lost = format!(
            "\
G,0
S,0,39\nQ,0,1000,10,,\nV,0,0,1
S,0,42\nQ,0,1000,7,,\nV,0,3,1
{refused}\nQ,0,1000,7,,\nV,0,3,1
S,7,17\nQ,8,,,,\nV,0,3,0
{refused}\nQ,8,,,,\nV,0,3,0
S,0,20\nQ,0,,,,\nV,0,3,0
{refused}\nQ,0,,,,\nV,0,3,0
S,0,17\nQ,0,,,,\nV,0,3,0
"
        );
        let name = format!("a-{kind}-with-a-bad-condition-is-a-lost-one");
        assert_eq!(probed(&name), lost, "{name}");
        let unused = format!(
            "\
G,0
S,0,39\nQ,0,1000,10,,\nV,0,0,1
{refused}\nQ,0,1000,10,,\nV,0,0,1
S,0,42\nQ,0,1000,6,,\nV,0,4,1
{refused}\nQ,0,1000,6,,\nV,0,4,1
S,0,33\nQ,0,1000,6,,\nV,0,9,1
"
        );
        let name = format!("a-{kind}-with-a-bad-condition-uses-no-number");
        assert_eq!(probed(&name), unused, "{name}");
    }
}

/// One share is executed for each 103: the longest list has so many codes.
#[test]
fn every_code_is_applied() {
    for (market, codes) in [(1, 5), (3, 5), (9, 5), (10, 4), (11, 4)] {
        let text = probed(&format!("every-code-of-market-{market}-applied"));
        let mut lines = text.lines();
        for line in ["M", "G,0", "S,0,39"] {
            assert_eq!(lines.next(), Some(line), "{market}");
        }
        for code in 1..=codes {
            let quote = format!("Q,0,1000,{},,", 100 - code);
            for (step, volume) in [("S,0,42", 2 * code - 1), ("S,0,33", 2 * code)] {
                assert_eq!(lines.next(), Some(step), "{market}");
                assert_eq!(lines.next(), Some(&*quote), "{market}");
                assert_eq!(lines.next(), Some(&*format!("V,0,{volume},1")), "{market}");
            }
            let written = lines.next().expect("the 103 is written back");
            assert!(written.starts_with("W,0,42,2a0067007d00"), "{written}");
        }
        assert_eq!(lines.next(), None, "{market}");
    }
}

#[test]
fn each_state_has_the_codes_of_its_market() {
    // O, 5, 6, 7, C, V and regular ones, all with the same number
    let auctions = "S,0,42 S,6,42 S,6,42 S,4,42,39 S,4,42,38 S,4,42,41 S,6,42";
    let national = "S,4,42,39 S,4,42,39 S,4,42,39 S,4,42,39 S,4,42,38 S,4,42,41 S,0,42";
    let texas = "S,4,42,39 S,4,42,39 S,4,42,39 S,0,42 S,6,42 S,6,42 S,6,42";
    let state = |steps| format!("M G,0 S,0,39 {steps} Q,0,1000,9,, V,0,1,1 ").replace(' ', "\n");
    assert_eq!(
        probed("five-states-one-a-market"),
        [auctions, auctions, auctions, national, texas]
            .map(state)
            .concat()
    );
    // In a run the opening trade comes first, then the cash one.
    let ends = [
        "Q,0,1000,9,,\nV,0,1,1\n",
        "Q,0,1000,9,,\nV,0,1,1\n",
        "Q,0,1000,9,,\nV,0,1,1\n",
        "Q,0,1000,10,,\nV,0,0,1\n",
        "Q,8,,,,\nV,0,0,0\n",
    ];
    assert_eq!(
        probed("a-run-in-a-state-of-each-market"),
        ends.map(|end| format!("M\nG,0\nX,1,114\n{end}")).concat()
    );
    let new_state = "D,0,33\nD,4,33,29\nM\nD,4,33,30\nD,0,33\nN\nD,0,33\nD,4,33,29\n";
    assert_eq!(probed("a-new-state-is-nyse-s"), new_state);
}

#[test]
fn a_new_market_forgets_the_symbols() {
    let state = "G,0\nS,0,39\nQ,0,1000,10,,\nM\nQ,5,,,,\nV,5,0,0\nS,5,39\n";
    assert_eq!(probed("a-new-market-has-no-symbol"), state.repeat(3));
    for id in [0, 2, 4, 8, 12, 49, 255] {
        let name = format!("no-market-has-the-number-{id}");
        assert_eq!(probed(&name), "M\n?\n", "{name}");
    }
    assert_eq!(probed("a-cut-market"), "N\n?\n");
}

#[test]
fn the_page_goes_by_nyse() {
    let added = "100,1,09:30:00.000000125,ABC,1,1,0.1000";
    let refused = "R,4,2,39\nR,4,3,38\nR,4,4,41\nR,4,5,30\nR,4,6,29\nR,4,7,32\n";
    assert_eq!(
        printed("codes-of-texas-alone-on-the-page"),
        format!("{added},10,B,FIRM1,0\n{refused}E,1\nQ,0.1000,10,,\n")
    );
    assert_eq!(
        printed("every-code-of-nyse"),
        format!("{added},100,B,FIRM1,0\nE,1\nQ,0.1000,95,,\n")
    );
    assert_eq!(
        printed("a-bad-condition-across-the-part"),
        "R,3,1\n100,2,09:30:00.000000125,ABC,1,1,0.1000,10,B,FIRM1,0\nR,4,3,40\nE,1\nQ,0.1000,6,,\n"
    );
}

/// The bytes of firms, cross types, indicators, plain and reserved places stay free.
#[test]
fn other_bytes_are_good_whatever_they_are() {
    let text = probed("every-byte-where-any-is-good");
    assert_eq!(text.lines().count(), 256 * 7);
    assert!(text.lines().all(|line| line.starts_with("D,0,")));
}

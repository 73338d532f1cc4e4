//! What is printed of the named cases of request M-110, line by line, written by hand by the rules of
//! document 01. Sizes: an add has 39 bytes, a modify 35, a delete 25, an execute and a replace 42, a
//! trade 33, a cross 29, a correction 24, a cancel and a clear 20, a retail 17.

mod common;

use common::{printed, probed};

/// A group of messages: the lines of its steps, its bytes, and the quotes and volumes after it.
type Group<'a> = (&'a str, u32, &'a str);

/// The lines of a case of two states with so many symbols: in the first the steps of each group, in
/// the second a run over its bytes.
fn twice(symbols: usize, groups: &[Group]) -> String {
    let begun = format!("N\n{}", "G,0\n".repeat(symbols));
    let steps = groups
        .iter()
        .map(|(steps, _, asked)| format!("{steps}{asked}"));
    let runs = groups
        .iter()
        .map(|(_, bytes, asked)| format!("X,1,{bytes}\n{asked}"));
    [
        begun.clone(),
        steps.collect(),
        begun.clone(),
        runs.collect(),
    ]
    .concat()
}

/// The other symbol gets a buy of 1 share, of 2 and of 3, at 2,000. The clear to 3 is to the expected
/// number; that to 9 is not, and behind it number 5 is low.
#[test]
fn a_clear_amid_a_run() {
    let lines = twice(
        2,
        &[
            (
                "S,0,39\nS,0,39\nS,0,33\nS,0,20\nS,0,39\nS,0,39\nS,0,33\n",
                242,
                "Q,0,1100,7,,\nV,0,11,1\nQ,0,2000,3,,\nV,0,0,1\n",
            ),
            (
                "S,0,20\nS,6,25\nS,0,39\nS,0,39\nS,0,33\n",
                156,
                "Q,0,,,1200,8\nV,0,20,0\nQ,0,2000,6,,\nV,0,0,1\n",
            ),
        ],
    );
    assert_eq!(probed("a-clear-amid-a-run"), lines);
}

/// Behind a refusal that makes a symbol stale its messages answer 8 until a clear, a low number too,
/// and those of the other symbol are done.
#[test]
fn a_7_and_a_9_amid_a_run() {
    for (name, answer, size) in [
        ("a-7", 7, 39),
        ("a-9-by-an-add", 9, 39),
        ("a-9-by-a-modify", 9, 35),
        ("a-9-by-a-delete", 9, 25),
        ("a-9-by-an-execute", 9, 42),
        ("a-9-by-a-replace", 9, 42),
    ] {
        let name = format!("{name}-amid-a-run");
        let refused = format!("S,{answer},{size}\n");
        let cleared = "S,0,39\nS,8,25\nS,0,20\nS,0,39\nS,0,33\n";
        let lines = twice(
            2,
            &[
                (
                    &format!("S,0,39\nS,0,39\nS,0,33\n{refused}{cleared}"),
                    111 + size + 156,
                    "Q,0,1100,7,,\nV,0,11,0\nQ,0,2000,3,,\nV,0,0,1\n",
                ),
                (
                    &format!("{refused}S,0,39\nS,8,33\n"),
                    size + 72,
                    "Q,8,,,,\nV,0,11,0\nQ,0,2000,6,,\nV,0,0,1\n",
                ),
            ],
        );
        assert_eq!(probed(&name), lines, "{name}");
    }
}

/// Of 256 orders of 10 shares 51 are at the best price, those whose numbers end in 4 and 9.
const FILLED: &str = "S,0,39\nQ,0,1004,510,,\nV,0,0,1\n";

#[test]
fn a_10_amid_a_run() {
    let end = "Q,0,900,4,3000,3\nV,0,0,0\n";
    let name = "a-10-amid-a-run";
    let steps = format!(
        "\
{FILLED}S,10,39\nQ,8,,,,\nV,0,0,0
S,8,25\nQ,8,,,,\nV,0,0,0
S,0,20\nQ,0,,,,\nV,0,0,0
S,0,39\nQ,0,,,3000,3\nV,0,0,0
S,0,39\n{end}"
    );
    let text = probed(name);
    assert!(text.ends_with(&steps), "{text}");
    let run = format!("G,0\nX,1,10146\n{end}");
    assert_eq!(probed(&format!("{name}-at-once")), run);
}

/// The same on the page, where a clear has no line.
#[test]
fn a_10_on_the_page() {
    let time = "09:30:00.000000125,ABC";
    let adds = (1..=256).map(|number| {
        let price = number % 5;
        format!("100,{number},{time},{number},{number},0.100{price},10,B,FIRM1,0\n")
    });
    let behind = format!(
        "\
R,10,257
R,8,258
100,260,{time},257,1,0.3000,3,S,FIRM1,0
100,261,{time},258,258,0.0900,4,B,FIRM1,0
E,1
Q,0.0900,4,0.3000,3
"
    );
    let page = adds.collect::<String>() + &behind;
    assert_eq!(printed("a-10-amid-a-run"), page);
}

/// An order is replaced by itself, and another by a new one; when the first is deleted there is room
/// for the number that went, and the new one is replaced again. Where a third is executed there is
/// room for it again.
#[test]
fn replaces_in_a_full_book_amid_a_run() {
    let end = "Q,0,2000,30,,\nV,0,0,1\n";
    let name = "replaces-in-a-full-book-amid-a-run";
    let steps = format!(
        "\
{FILLED}S,0,42\nQ,0,2000,7,,\nV,0,0,1
S,0,42\nQ,0,2000,15,,\nV,0,0,1
S,0,25\nQ,0,2000,8,,\nV,0,0,1
S,0,39\nQ,0,2000,17,,\nV,0,0,1
S,0,42\nQ,0,2000,19,,\nV,0,0,1
S,0,42\nQ,0,2000,19,,\nV,0,0,1
S,0,39\n{end}"
    );
    let text = probed(name);
    assert!(text.ends_with(&steps), "{text}");
    let run = format!("G,0\nX,1,10255\n{end}");
    assert_eq!(probed(&format!("{name}-at-once")), run);
}

/// An order is found under its last number alone, and not when it went.
#[test]
fn orders_go_amid_a_run() {
    let stale = "Q,8,,,,\nV,0,0,0\n";
    let lines = twice(
        1,
        &[
            (
                "S,0,39\nS,0,42\nS,0,42\nS,0,39\nS,0,25\nS,0,39\nS,0,42\nS,0,39\n",
                307,
                "Q,0,1002,48,,\nV,0,0,1\n",
            ),
            ("S,0,42\nS,9,35\n", 77, stale),
            ("S,0,20\nS,9,25\n", 45, stale),
            ("S,0,20\nS,0,39\nS,0,25\n", 84, "Q,0,,,,\nV,0,0,0\n"),
            ("S,9,25\n", 25, stale),
            ("S,0,20\nS,0,39\nS,0,42\nS,9,42\n", 143, stale),
        ],
    );
    assert_eq!(probed("orders-go-amid-a-run"), lines);
}

/// The n-th trade has n shares: 127 have 8,128, 128 have 8,256, and there is no room for the 129th.
#[test]
fn trades_up_to_the_room_and_past_it() {
    assert_eq!(
        probed("129-trades-one-by-one"),
        format!("G,0\n{}Q,0,,,,\nV,0,8256,0\n", "S,0,33\n".repeat(129))
    );
    for (count, kept, volumes, whole) in [
        (127, 4191, [8128, 8001, 8000], 1),
        (128, 4224, [8256, 8128, 8127], 1),
        (129, 4257, [8256, 8256, 8255], 0),
    ] {
        let name = format!("{count}-trades-and-two-cancels");
        let [filled, first, end] = volumes.map(|volume| format!("V,0,{volume},{whole}\n"));
        assert_eq!(
            probed(&name),
            format!("G,0\nX,1,{kept}\n{filled}S,0,20\n{first}S,0,20\n{end}Q,0,,,,\n{end}"),
            "{name}"
        );
        assert_eq!(
            probed(&format!("{name}-at-once")),
            format!("G,0\nX,1,{}\nQ,0,,,,\n{end}", kept + 40),
            "{name}"
        );
    }
}

/// The first clear is not to 1, which costs the mark.
#[test]
fn the_last_number_amid_a_run() {
    let lines = twice(
        1,
        &[
            (
                "S,0,20\nS,0,39\nS,0,39\nS,6,39\nS,6,39\nS,6,33\n",
                209,
                "Q,0,1000,3,,\nV,0,0,0\n",
            ),
            (
                "S,6,17\nS,0,20\nS,0,39\nS,0,33\n",
                109,
                "Q,0,900,16,,\nV,0,6,0\n",
            ),
        ],
    );
    assert_eq!(probed("the-last-number-amid-a-run"), lines);
}

/// Recorded and cancelled; repeated; cancelled before it comes; beside its neighbours; beside numbers
/// with one other bit; twice with only a neighbour cancelled; cancelled twice.
#[test]
fn trades_at_the_edges_amid_a_run() {
    let (trade, cancel) = ("S,0,33\n", "S,0,20\n");
    let steps = [
        trade, cancel, trade, trade, cancel, trade, trade, trade, trade, cancel, trade, trade,
        trade, cancel, trade, cancel, trade, cancel, trade, cancel, cancel,
    ]
    .concat();
    let volumes = ["0,1", "5,0", "7,0", "13,1", "13,1", "5,0", "5,0", "0,0"];
    let asked = volumes.map(|volume| format!("Q,0,,,,\nV,0,{volume}\n"));
    let lines = twice(8, &[(&steps, 589, &asked.concat())]);
    for edge in ["0", "all-ones"] {
        assert_eq!(probed(&format!("trade-{edge}-amid-a-run")), lines, "{edge}");
    }
}

/// ABC, index 0 and the last index: one book and one record each.
#[test]
fn symbols_at_the_edges_amid_a_run() {
    let lines = twice(
        3,
        &[
            (
                "S,0,39\nS,0,39\nS,0,39\nS,0,33\nS,0,33\nS,0,33\n",
                216,
                "\
Q,0,1002,4,,\nV,0,40,1
Q,0,1000,1,,\nV,0,10,1
Q,0,1001,2,,\nV,0,20,1
",
            ),
            (
                "S,0,20\nS,0,25\nS,7,17\nS,0,39\nS,0,39\n",
                140,
                "\
Q,8,,,,\nV,0,40,0
Q,0,,,7,7\nV,0,10,1
Q,0,,,8,8\nV,0,20,0
",
            ),
        ],
    );
    assert_eq!(probed("symbols-0-and-all-ones-amid-a-run"), lines);
}

/// A modify, a delete, an execution, a replace, a cancel, a clear, a gap and a misfit: one each.
#[test]
fn eight_symbols_by_turns() {
    let begun =
        (1..=8).map(|place| format!("Q,0,{},{place},,\nV,0,{},1\n", 1000 + place, 10 * place));
    let lines = twice(
        8,
        &[
            (
                &format!("{}{}", "S,0,39\n".repeat(8), "S,0,33\n".repeat(8)),
                576,
                &begun.collect::<String>(),
            ),
            (
                "S,0,35\nS,0,25\nS,0,42\nS,0,42\nS,0,20\nS,0,20\nS,7,17\nS,9,39\n",
                240,
                "\
Q,0,1100,11,,\nV,0,10,1
Q,0,,,,\nV,0,20,1
Q,0,1003,2,,\nV,0,31,1
Q,0,1200,12,,\nV,0,40,1
Q,0,1005,5,,\nV,0,0,1
Q,0,,,,\nV,0,60,1
Q,8,,,,\nV,0,70,0
Q,8,,,,\nV,0,80,0
",
            ),
        ],
    );
    assert_eq!(probed("eight-symbols-by-turns"), lines);
}

/// An add, a trade, a clear and an add of a symbol that is not registered.
const UNREGISTERED: &str = "S,5,39\nS,5,33\nS,5,20\nS,5,39\n";

#[test]
fn an_unregistered_symbol() {
    let own = "S,0,39\nS,0,33\n";
    let begun = "Q,0,1000,10,,\nV,0,5,1\n";
    let more = ("S,0,39\n", 39, "Q,0,1000,10,1100,20\nV,0,5,1\n");
    assert_eq!(
        probed("an-unregistered-symbol-first"),
        twice(1, &[(&format!("{UNREGISTERED}{own}"), 203, begun), more])
    );
    assert_eq!(
        probed("an-unregistered-symbol-last"),
        twice(1, &[(&format!("{own}{UNREGISTERED}"), 203, begun), more])
    );
    let nothing = (UNREGISTERED, 131, "Q,0,,,,\nV,0,0,1\n");
    assert_eq!(
        probed("an-unregistered-symbol-throughout"),
        twice(1, &[nothing, nothing, (own, 72, begun)])
    );
}

/// ABC alone is registered, then the three others, which are new then; or none is.
#[test]
fn symbols_that_are_not_registered_yet() {
    let none = "Q,5,,,,\nV,5,0,0\n".repeat(3);
    let abc = "Q,0,1000,10,,\nV,0,0,1\n";
    let new = "Q,0,,,,\nV,0,0,1\n".repeat(3);
    let lived = "Q,0,7,7,,\nV,0,6,0\n".repeat(3);
    let life = "S,0,39\nS,0,33\nS,0,20\nS,0,39\n".repeat(3);
    let unregistered = UNREGISTERED.repeat(3);
    let halves = [
        [
            format!("{unregistered}S,0,39\n"),
            format!("{life}S,6,39\n"),
            format!("{unregistered}S,5,39\n"),
        ],
        ["X,1,432\n"; 3].map(String::from),
    ];
    let lines = halves.clone().map(|[first, second, _]| {
        let registered = "G,0\n".repeat(3);
        format!("N\nG,0\n{first}{abc}{none}{registered}{abc}{new}{second}{abc}{lived}")
    });
    let name = "unregistered-symbols-and-then-registered";
    assert_eq!(probed(name), lines.concat());
    let lines = halves.map(|[.., all]| format!("N\n{all}Q,5,,,,\nV,5,0,0\n{none}"));
    assert_eq!(probed("no-symbol-at-all"), lines.concat());
}

/// The good messages have 1, 4 and 16 shares in the book and 2, 8 and 32 in the record; then 64 until
/// a clear, and 256 and 512.
#[test]
fn every_answer_between_good_messages() {
    let lines = twice(
        1,
        &[
            (
                "\
S,0,39\nS,2,5\nS,0,33\nS,3,4\nS,0,39\nS,4,39,32
S,0,33\nS,5,39\nS,0,39\nS,6,39\nS,0,33
",
                342,
                "Q,0,1000,21,,\nV,0,42,1\n",
            ),
            (
                "\
S,7,17\nS,8,39\nS,0,20\nS,0,39
S,9,39\nS,8,33\nS,0,20\nS,0,39\nS,0,33
",
                279,
                "Q,0,1000,256,,\nV,0,554,0\n",
            ),
        ],
    );
    assert_eq!(probed("every-answer-between-good-messages"), lines);
}

/// Size, quote and volume of each type behind an order, a trade of 5 shares and a cross of 100, and the
/// quote when number 5 is a sell at 2,000.
const ALONE: [(u32, &str, &str, &str); 13] = [
    (39, "1000,10,1001,7", "105,1", "1000,10,1001,7"),
    (35, "1002,20,,", "105,1", "1002,20,2000,1"),
    (25, ",,,", "105,1", ",,2000,1"),
    (42, "1000,6,,", "109,1", "1000,6,2000,1"),
    (42, "1003,30,,", "105,1", "1003,30,2000,1"),
    (73, "1000,10,,", "105,1", "1000,10,2000,1"),
    (33, "1000,10,,", "111,1", "1000,10,2000,1"),
    (29, "1000,10,,", "155,1", "1000,10,2000,1"),
    (20, "1000,10,,", "100,1", "1000,10,2000,1"),
    (24, "1000,10,,", "65,1", "1000,10,2000,1"),
    (17, "1000,10,,", "105,1", "1000,10,2000,1"),
    (20, ",,,", "105,0", ",,2000,1"),
    (46, "1000,10,,", "105,1", "1000,10,2000,1"),
];

#[test]
fn each_type_alone() {
    for (name, done) in [
        ("each-type-alone", "S,0"),
        ("each-type-alone-at-once", "X,1"),
    ] {
        let lines = ALONE.map(|(size, quote, volume, last)| {
            format!(
                "\
N\nG,0\nS,0,39\nS,0,33\nS,0,29
{done},{size}\nQ,0,{quote}\nV,0,{volume}
S,0,39\nQ,0,{last}\nV,0,{volume}
"
            )
        });
        assert_eq!(probed(name), lines.concat(), "{name}");
    }
}

/// No type is taken for one of another size; each run goes on behind it.
#[test]
fn wrong_sizes_in_runs() {
    let sizes = [39, 35, 42, 42, 25, 73, 33, 29, 20, 24, 17, 46, 20];
    let nothing = "Q,0,,,,\nV,0,0,1\n";
    for (name, sizes) in [
        ("one-byte-too-few-in-each", sizes.map(|size| size - 1)),
        ("one-byte-too-many-in-each", sizes.map(|size| size + 1)),
        ("size-4-in-each", [4; 13]),
    ] {
        let runs = sizes.map(|size| format!("X,1,{size}\n{nothing}"));
        let lines = format!("G,0\n{}{nothing}", runs.concat());
        assert_eq!(probed(&format!("{name}-in-runs")), lines, "{name}");
    }
}

#[test]
fn a_run_that_meets_no_message_changes_nothing() {
    let starts = [0, 0, 0, 0, 36, 39, 40, 43, 65_535];
    let nothing = starts.map(|at| format!("X,1,{at}\nS,1,{at}\n")).concat();
    let lines = format!(
        "\
G,0\nS,0,39\nS,0,33
{nothing}Q,0,1000,10,,\nV,0,5,1
X,1,39\nQ,0,1000,30,,\nV,0,5,1
"
    );
    assert_eq!(probed("runs-of-no-message"), lines);
}

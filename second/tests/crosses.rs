//! What is printed of the named cases of request M-102, line by line, written by hand by document 01
//! and the request. Sizes: an add has 39 bytes, an execute 42, a trade 33, a cross 29, a delete 25, a
//! correction 24, a cancel and a clear 20, a retail 17.

mod common;

use common::{printed, probed};

/// The quote of a book with no order.
const NONE: &str = "Q,0,,,,";

/// The 16 crosses of most cases, and their volume: 1 and 2 and so on to 16.
const FULL: Run = (464, "136,1");

/// The bytes of a run, and the volume after it with the mark.
type Run<'a> = (u32, &'a str);

/// A case of steps with the volume after each, behind a run or none; at the end the quote and once more
/// the volume. At once it is one run, and the same at its end. A step is written as its answer and size,
/// with the offset of a bad field, a colon, and the volume after it.
fn assert_told(name: &str, before: Option<Run>, steps: &str, quote: &str) {
    let steps = steps.split_whitespace().map(|step| step.split_once(':'));
    let steps: Vec<_> = steps.map(|step| step.expect("a colon")).collect();
    let begun = before.map_or(String::new(), |(bytes, volume)| {
        format!("X,1,{bytes}\nV,0,{volume}\n")
    });
    let lines = steps
        .iter()
        .map(|(step, volume)| format!("S,{step}\nV,0,{volume}\n"));
    let (_, last) = steps.last().expect("a case has a step");
    let end = format!("{quote}\nV,0,{last}\n");
    let text = format!("G,0\n{begun}{}{end}", lines.collect::<String>());
    assert_eq!(probed(name), text, "{name}");
    let sizes = steps.iter().filter_map(|(step, _)| step.split(',').nth(1));
    let sizes = sizes.map(|size| size.parse::<u32>().expect("a size"));
    let bytes = before.map_or(0, |(bytes, _)| bytes) + sizes.sum::<u32>();
    assert_eq!(
        probed(&format!("{name}-at-once")),
        format!("G,0\nX,1,{bytes}\n{end}"),
        "{name}"
    );
}

/// Behind no run, with no order at the end.
fn assert_steps(name: &str, steps: &str) {
    assert_told(name, None, steps, NONE);
}

/// The same behind 16 crosses.
fn assert_full(name: &str, steps: &str) {
    assert_told(name, Some(FULL), steps, NONE);
}

#[test]
fn crosses_count() {
    assert_steps(
        "crosses-count",
        "0,29:500,1 0,33:505,1 0,24:405,1 0,29:465,1 0,20:460,1 0,24:470,1",
    );
    assert_steps(
        "crosses-of-any-type-and-price-count",
        "0,29:1,1 0,29:3,1 0,29:7,1 0,29:15,1 0,29:31,1",
    );
}

/// The executions of an auction are not printed: its shares are those of the cross.
#[test]
fn an_auction_counts_once() {
    assert_steps(
        "an-auction-counts-once",
        "0,39:0,1 0,39:0,1 0,39:0,1 0,42:0,1 0,42:0,1 0,42:0,1 0,29:100,1",
    );
}

#[test]
fn a_repeated_number() {
    assert_steps("a-repeated-cross", "0,29:5,1 0,29:5,0 0,29:5,0 0,24:7,0");
    assert_steps(
        "a-repeated-cross-of-another-volume",
        "0,29:5,1 0,29:5,0 0,17:5,0",
    );
    for place in ["first", "last"] {
        assert_told(
            &format!("the-{place}-of-15-crosses-repeated"),
            Some((435, "120,1")),
            "0,29:120,0 0,29:136,0",
            NONE,
        );
    }
    assert_full("a-repeated-cross-in-a-full-list", "0,29:136,0 0,24:155,0");
    assert_full(
        "the-last-cross-repeated-in-a-full-list",
        "0,29:136,0 0,24:140,0",
    );
}

#[test]
fn numbers_at_the_edges() {
    assert_steps(
        "cross-numbers-0-and-all-ones",
        "0,29:5,1 0,29:11,1 0,24:13,1 0,24:16,1 0,29:16,0 0,29:16,0",
    );
    for edge in ["0", "all-ones"] {
        assert_steps(
            &format!("a-correction-of-no-cross-{edge}"),
            "0,29:5,1 0,24:5,0 0,29:12,0",
        );
    }
}

/// The first cross has number 16 and volume 1, the last number 1 and volume 16; number 8 has 9.
#[test]
fn numbers_that_fall() {
    assert_full(
        "crosses-in-falling-order",
        "0,24:236,1 0,24:336,1 0,24:436,1 0,29:436,0",
    );
}

#[test]
fn the_16th_is_kept_and_the_17th_costs_the_mark() {
    let steps = (1..=16).map(|count| format!("0,29:{},1 ", count * (count + 1) / 2));
    let steps: String = steps.collect();
    assert_steps("16-crosses-one-by-one", &steps);
    assert_told(
        "the-16th-cross",
        Some((435, "120,1")),
        "0,29:136,1 0,17:136,1",
        NONE,
    );
    assert_full(
        "the-17th-cross",
        "0,29:136,0 0,29:136,0 0,24:136,0 0,24:137,0 0,24:138,0",
    );
    assert_full("a-17th-cross-of-0", "0,29:136,0 0,17:136,0");
}

#[test]
fn crosses_of_no_shares_have_places() {
    assert_told(
        "16-crosses-of-0",
        Some((464, "0,1")),
        "0,24:9,1 0,29:9,0 0,24:17,0",
        NONE,
    );
    assert_full(
        "a-correction-to-0-frees-no-place",
        "0,24:133,1 0,29:133,0 0,24:137,0",
    );
    assert_steps(
        "a-cross-of-0-is-kept",
        "0,29:0,1 0,24:8,1 0,29:8,1 0,29:8,0 0,24:24,0",
    );
}

/// 128 trades have 8,256 shares, 126 have 8,001.
#[test]
fn trades_and_crosses_have_their_own_places() {
    assert_told(
        "a-full-record-keeps-crosses",
        Some((4224, "8256,1")),
        "0,29:9256,1 0,24:10256,1 0,33:10256,0 0,29:10356,0",
        NONE,
    );
    assert_told(
        "128-trades-behind-16-crosses",
        Some((4622, "8137,1")),
        "0,33:8264,1 0,33:8392,1 0,33:8392,0",
        NONE,
    );
    assert_full(
        "16-crosses-keep-trades",
        "0,33:236,1 0,33:436,1 0,20:336,1 0,29:336,0 0,33:636,0",
    );
}

/// 144 times 4,294,967,295 shares.
#[test]
fn the_largest_volume() {
    let steps = (1..=16).map(|count| format!("0,29:{},1 ", count * 4_294_967_295_u64));
    let steps: String = steps.collect();
    assert!(steps.ends_with(":68719476720,1 "));
    assert_steps("16-largest-crosses", &steps);
    assert_told(
        "the-largest-volume",
        Some((4688, "618475290480,1")),
        "0,29:618475290480,0 0,33:618475290480,0 0,24:618475290479,0",
        NONE,
    );
}

#[test]
fn the_last_correction_counts() {
    assert_steps("a-correction-twice", "0,29:5,1 0,24:9,1 0,24:3,1 0,24:3,1");
    assert_steps(
        "a-correction-to-0-keeps-the-cross",
        "0,29:5,1 0,24:0,1 0,29:0,0 0,24:9,0",
    );
    assert_steps(
        "a-correction-after-one-to-0",
        "0,29:5,1 0,24:0,1 0,24:9,1 0,24:0,1 0,24:4294967295,1",
    );
}

#[test]
fn a_correction_of_no_cross_keeps_nothing() {
    assert_steps("a-correction-of-no-cross", "0,24:0,0 0,29:6,0 0,24:7,0");
    assert_steps(
        "a-correction-of-no-cross-to-no-shares",
        "0,29:5,1 0,24:5,0 0,24:0,0",
    );
    assert_full(
        "a-correction-of-no-cross-in-a-full-list",
        "0,24:136,0 0,24:127,0",
    );
}

/// Each of the 16 gets 100 shares in place of its own.
#[test]
fn corrections_in_a_full_list() {
    assert_full(
        "a-correction-in-a-full-list",
        "0,24:235,1 0,24:319,1 0,24:411,1 0,29:411,0",
    );
    let sums = [
        "235,1", "333,1", "430,1", "526,1", "621,1", "715,1", "808,1", "900,1", "991,1", "1081,1",
        "1170,1", "1258,1", "1345,1", "1431,1", "1516,1", "1600,1",
    ];
    assert_full(
        "a-correction-of-each-of-16-crosses",
        &sums.map(|sum| format!("0,24:{sum} ")).concat(),
    );
}

#[test]
fn trades_and_crosses_have_their_own_numbers() {
    assert_steps(
        "a-cross-and-a-trade-of-one-number",
        "0,33:5,1 0,29:11,1 0,24:12,1 0,20:7,1 0,33:15,1 0,29:24,1 0,33:34,1 0,20:24,1 0,24:26,1",
    );
    assert_steps("a-cancel-of-a-cross", "0,29:5,1 0,20:5,0 0,24:6,0");
    assert_steps(
        "a-correction-of-a-trade",
        "0,33:5,1 0,24:5,0 0,29:12,0 0,20:7,0",
    );
    assert_told(
        "a-cross-of-an-execution-s-number",
        None,
        "0,39:0,1 0,42:4,1 0,29:24,1 0,24:34,1 0,20:30,1",
        "Q,0,1000,6,,",
    );
}

/// The quote and the volume after each of three steps behind so many crosses: the second one costs the
/// mark and uses its number, and the third fits.
#[test]
fn what_costs_the_mark_leaves_the_book() {
    for (name, crosses, size, volume) in [
        ("a-failed-correction-leaves-the-book", 0, 24, 0),
        ("a-repeated-cross-leaves-the-book", 1, 29, 1),
        ("a-17th-cross-leaves-the-book", 16, 29, 136),
    ] {
        let kept = (1..=crosses).map(|count| {
            let volume = count * (count + 1) / 2;
            format!("S,0,29\n{NONE}\nV,0,{volume},1\n")
        });
        let end = format!("Q,0,1000,30,,\nV,0,{volume},0\n");
        let text = format!(
            "\
G,0\n{}S,0,39\nQ,0,1000,10,,\nV,0,{volume},1
S,0,{size}\nQ,0,1000,10,,\nV,0,{volume},0
S,0,39\n{end}",
            kept.collect::<String>()
        );
        assert_eq!(probed(name), text, "{name}");
        let bytes = 29 * crosses + 39 + size + 39;
        assert_eq!(
            probed(&format!("{name}-at-once")),
            format!("G,0\nX,1,{bytes}\n{end}"),
            "{name}"
        );
    }
}

/// Every cross has its line, also one that is not kept.
#[test]
fn pages_of_crosses() {
    let time = "09:30:00.000000125,ABC";
    let add = |place: u32, order: u32, volume: u32| {
        format!("100,{place},{time},{place},{order},0.1000,{volume},B,FIRM1,0\n")
    };
    let crosses = (1..=16).map(|number| {
        let place = format!("111,{number},{time},{number}");
        format!("{place},{number},0.1000,{number},O\n")
    });
    let crosses: Vec<String> = crosses.collect();
    assert_eq!(
        printed("a-failed-correction-leaves-the-book"),
        format!("{}{}E,1\nQ,0.1000,30,,\n", add(1, 1, 10), add(3, 2, 20))
    );
    assert_eq!(
        printed("a-repeated-cross-leaves-the-book"),
        format!(
            "{}{}111,3,{time},3,1,0.1000,1,O\n{}E,1\nQ,0.1000,30,,\n",
            crosses[0],
            add(2, 1, 10),
            add(4, 2, 20)
        )
    );
    assert_eq!(
        printed("a-17th-cross-leaves-the-book"),
        format!(
            "{}{}111,18,{time},18,17,0.1000,17,O\n{}E,1\nQ,0.1000,30,,\n",
            crosses.concat(),
            add(17, 1, 10),
            add(19, 2, 20)
        )
    );
    assert_eq!(
        printed("a-correction-uses-its-number"),
        format!(
            "111,1,{time},1,1,0.1000,5,O\nR,6,3\n100,4,{time},3,1,0.1000,20,B,FIRM1,0\nR,7,5\nE,1\nQ,8\n"
        )
    );
}

#[test]
fn a_correction_uses_its_number() {
    let name = "a-correction-uses-its-number";
    let end = "Q,8,,,,\nV,0,6,0\n";
    let text = format!(
        "\
G,0\nS,0,29\n{NONE}\nV,0,5,1
S,0,24\n{NONE}\nV,0,6,1
S,6,39\n{NONE}\nV,0,6,1
S,0,39\nQ,0,1000,20,,\nV,0,6,1
S,7,24\n{end}"
    );
    assert_eq!(probed(name), text);
    assert_eq!(
        probed(&format!("{name}-at-once")),
        format!("G,0\nX,1,155\n{end}")
    );
}

#[test]
fn refused_for_a_field_or_the_symbol() {
    assert_steps(
        "a-cross-refused-with-4-and-5",
        "4,29,4:0,1 5,29:0,1 0,29:5,1 4,29,4:5,1 5,29:5,1 0,29:11,1",
    );
    assert_steps(
        "a-correction-refused-with-4-and-5",
        "0,29:5,1 4,24,4:5,1 5,24:5,1 4,24,4:5,1 5,24:5,1 0,24:6,1",
    );
}

#[test]
fn refused_for_the_number() {
    assert_steps(
        "a-cross-refused-with-6-and-7",
        "0,29:5,1 6,29:5,1 6,29:5,1 0,29:11,1 7,29:11,0 8,29:11,0 0,20:11,0 0,24:11,0 0,29:19,0",
    );
    assert_steps(
        "a-correction-refused-with-6-and-7",
        "0,29:5,1 6,24:5,1 6,24:5,1 0,24:7,1 7,24:7,0 8,24:7,0 0,20:7,0 0,24:10,0",
    );
    assert_steps(
        "crosses-at-the-last-number",
        "0,20:0,0 0,29:5,0 0,24:6,0 6,29:6,0 6,24:6,0 0,20:6,0 0,24:9,0",
    );
}

#[test]
fn refused_while_stale() {
    assert_steps(
        "crosses-of-a-stale-symbol",
        "0,29:5,1 7,17:5,0 8,29:5,0 8,24:5,0 0,20:5,0 0,29:11,0 0,24:13,0",
    );
    assert_steps(
        "crosses-of-a-symbol-that-a-misfit-made-stale",
        "0,29:5,1 9,25:5,0 8,29:5,0 8,24:5,0 0,20:5,0 0,24:8,0 0,29:14,0",
    );
}

#[test]
fn a_clear_keeps_the_crosses() {
    assert_steps(
        "crosses-stay-at-a-clear",
        "0,29:5,1 0,20:5,1 0,29:11,1 0,24:13,1 0,20:13,1 0,20:13,0 0,24:15,0 0,29:15,0 0,29:25,0",
    );
    assert_steps(
        "a-repeated-cross-behind-a-clear",
        "0,29:5,1 0,20:5,1 0,29:5,0",
    );
    assert_full(
        "16-crosses-and-a-clear",
        "0,20:136,1 0,24:137,1 0,29:137,0 0,20:137,0 0,29:137,0 0,24:138,0",
    );
}

#[test]
fn crosses_are_kept_without_the_mark() {
    assert_steps(
        "still-keeping-crosses-without-the-mark",
        "\
0,20:0,0 0,29:5,0 0,29:11,0 0,24:13,0 0,24:13,0 0,29:13,0 7,17:13,0 0,20:13,0
0,29:22,0 0,33:32,0 0,24:23,0 0,20:13,0",
    );
    assert_told(
        "16-crosses-without-the-mark",
        Some((488, "136,0")),
        "0,29:136,0 0,24:140,0",
        NONE,
    );
}

/// A step, and the volumes of ABC and of the other symbol after it.
#[test]
fn two_symbols() {
    let steps = [
        (29, "5,1", "0,1"),
        (29, "5,1", "60,1"),
        (24, "6,1", "60,1"),
        (24, "6,1", "70,1"),
        (29, "6,1", "870,1"),
        (24, "6,0", "870,1"),
        (24, "6,0", "970,1"),
        (29, "14,0", "970,1"),
        (29, "14,0", "970,0"),
    ];
    let lines = steps.map(|(size, own, other)| format!("S,0,{size}\nV,0,{own}\nV,0,{other}\n"));
    assert_eq!(
        probed("crosses-of-two-symbols"),
        format!("G,0\nG,0\n{}", lines.concat())
    );
}

/// The volumes of 16 crosses in each of the eight symbols.
const EIGHT: [&str; 8] = [
    "128,1", "16,1", "1536,1", "32,1", "48,1", "64,1", "16,1", "144,1",
];

fn volumes(symbols: &[&str; 8]) -> String {
    symbols.map(|volume| format!("V,0,{volume}\n")).concat()
}

/// What changes with each step: a symbol's place and its volume.
fn changed(symbols: &mut [&'static str; 8], steps: &[(u32, usize, &'static str)]) -> String {
    let lines = steps.iter().map(|(size, place, volume)| {
        symbols[*place] = volume;
        format!("S,0,{size}\n{}", volumes(symbols))
    });
    lines.collect()
}

#[test]
fn eight_symbols() {
    let mut symbols = EIGHT;
    let registered = "G,0\n".repeat(8);
    let begun = format!("{registered}X,1,3712\n{}", volumes(&symbols));
    let steps = changed(
        &mut symbols,
        &[
            (24, 0, "1120,1"),
            (24, 7, "2135,1"),
            (29, 4, "48,0"),
            (29, 5, "64,0"),
            (24, 3, "32,0"),
        ],
    );
    symbols[0] = "1120,0";
    symbols[7] = "2135,0";
    assert_eq!(
        probed("eight-symbols-of-16-crosses"),
        format!("{begun}{steps}S,0,29\nS,0,29\n{}", volumes(&symbols))
    );
}

#[test]
fn the_eighth_symbol_beside_seven_full_ones() {
    let mut symbols = EIGHT;
    let registered = "G,0\n".repeat(8);
    symbols[7] = "0,1";
    let begun = format!("{registered}X,1,3248\n{}", volumes(&symbols));
    let first = changed(&mut symbols, &[(29, 7, "9,1"), (29, 7, "18,1")]);
    symbols[7] = "144,1";
    let full = volumes(&symbols);
    let last = changed(
        &mut symbols,
        &[
            (24, 7, "185,1"),
            (29, 7, "185,0"),
            (20, 0, "128,1"),
            (24, 0, "129,1"),
        ],
    );
    assert_eq!(
        probed("crosses-of-the-eighth-symbol"),
        format!("{begun}{first}X,1,406\n{full}{last}")
    );
}

#[test]
fn new_states_and_new_symbols() {
    assert_eq!(
        probed("a-new-state-has-no-crosses"),
        "N\nG,0\nV,0,0,1\nX,1,464\nV,0,136,1\n".repeat(2)
    );
    assert_eq!(
        probed("the-crosses-of-no-symbol"),
        "\
S,5,29\nV,5,0,0
S,5,24\nV,5,0,0
G,0\nV,0,0,1
S,0,29\nV,0,5,1
S,0,24\nV,0,6,1
"
    );
}

/// A run that lacks the last byte of a message changes nothing and stops where the message starts.
#[test]
fn runs_that_stop_within_messages() {
    let messages = [
        (29, "1,1"),
        (62, "3,1"),
        (86, "6,1"),
        (115, "14,1"),
        (135, "12,1"),
        (159, "20,1"),
        (192, "52,1"),
        (216, "112,1"),
        (245, "112,0"),
        (269, "112,0"),
        (289, "112,0"),
    ];
    let mut before = (0, "0,1");
    let mut text = "G,0\n".to_string();
    for (end, volume) in messages {
        let (at, old) = before;
        text += &format!("X,1,{at}\nV,0,{old}\nX,1,{end}\nV,0,{volume}\n");
        before = (end, volume);
    }
    assert_eq!(
        probed("runs-that-stop-within-crosses"),
        format!("{text}{NONE}\nV,0,112,0\n")
    );
    assert_eq!(
        probed("a-run-that-stops-within-a-cross"),
        format!("G,0\nX,1,86\nV,0,6,1\nX,1,289\nV,0,112,0\n{NONE}\nV,0,112,0\n")
    );
}

/// The lines of two states, the first of steps and the second of runs, each with its symbols.
fn twice(symbols: usize, groups: &[(&str, u32, &str)]) -> String {
    let begun = format!("N\n{}", "G,0\n".repeat(symbols));
    let steps = groups.iter().map(|(steps, _, asked)| {
        let steps = steps.split(' ').map(|step| format!("S,{step}\n"));
        steps.collect::<String>() + asked
    });
    let runs = groups
        .iter()
        .map(|(_, bytes, asked)| format!("X,1,{bytes}\n{asked}"));
    let [steps, runs] = [steps.collect::<String>(), runs.collect()];
    format!("{begun}{steps}{begun}{runs}")
}

#[test]
fn crosses_amid_a_run() {
    let lines = twice(
        2,
        &[
            (
                "0,29 0,29 0,33 0,24 0,24 0,29 0,20 0,20 0,24 0,33",
                265,
                &format!("{NONE}\nV,0,52,1\n{NONE}\nV,0,200,1\n"),
            ),
            (
                "0,24 0,29 7,29 8,24 0,20 0,20 0,24 0,29",
                199,
                &format!("{NONE}\nV,0,148,0\n{NONE}\nV,0,1100,0\n"),
            ),
        ],
    );
    assert_eq!(probed("crosses-amid-a-run"), lines);
    let crosses = ["0,29"; 16].join(" ");
    let lines = twice(
        1,
        &[
            (
                &format!("{crosses} 0,24 0,24"),
                512,
                &format!("{NONE}\nV,0,190,1\n"),
            ),
            ("0,29 0,24", 53, &format!("{NONE}\nV,0,230,0\n")),
        ],
    );
    assert_eq!(probed("16-crosses-amid-a-run"), lines);
}

/// Corrected; repeated; corrected before it comes; beside its neighbours; beside numbers with one other
/// bit; only a neighbour corrected, twice; beside a trade that is cancelled.
#[test]
fn numbers_at_the_edges_amid_a_run() {
    let steps = [
        "0,29 0,24",
        "0,29 0,29",
        "0,24 0,29",
        "0,29 0,29 0,29 0,24",
        "0,29 0,29 0,29 0,24",
        "0,29 0,24",
        "0,29 0,24",
        "0,29 0,33 0,20",
    ];
    let volumes = ["6,1", "5,0", "7,0", "21,1", "21,1", "5,0", "5,0", "5,1"];
    let asked = volumes.map(|volume| format!("{NONE}\nV,0,{volume}\n"));
    let lines = twice(8, &[(&steps.join(" "), 574, &asked.concat())]);
    for edge in ["0", "all-ones"] {
        assert_eq!(probed(&format!("cross-{edge}-amid-a-run")), lines, "{edge}");
    }
}

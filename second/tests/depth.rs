//! What is printed of the named cases of request M-106, line by line, written by hand by document 01
//! and the request. Sizes: an add has 39 bytes, a modify 35, a delete 25, an execute and a replace 42, a
//! clear 20, a retail 17.

mod common;

use common::{named, printed, probed};
use second::program::painterend_levels;

/// Rows of the ten prices a side that most cases have: price, shares, orders.
const BIDS: &str = "1235000,200,1 1234900,125,2 1234500,4294967299,3 1234499,100,1 \
    1233000,399,2 1230000,10,4 1200005,5000,1 1000000,8589934590,2 999999,12,1 100,777,3";
const ASKS: &str = "1235100,100,2 1235200,1,1 1235250,250,1 1236000,12884901885,3 \
    1236001,17,1 1240000,1099,2 1300000,33,1 1999999,450,1 2000000,88,2 3000000,6,1";

/// Behind them, where there are twelve. The bids' twelfth is 0,1,1, the asks' 4294967295,2,1.
const ELEVENTH_BID: &str = "99,909,2";
const ELEVENTH_ASK: &str = "4294967294,615,3";

/// What a side's rows are, and empty ones behind them until there are ten.
fn rows(side: &str) -> String {
    let used: Vec<&str> = side.split_whitespace().collect();
    assert!(used.len() <= 10, "{side}");
    let shown: String = used.iter().map(|row| format!(",{row}")).collect();
    shown + &",,,".repeat(10 - used.len())
}

/// The first row without its orders: price and shares.
fn best(side: &str) -> &str {
    let first = side.split_whitespace().next().unwrap_or(",,");
    &first[..first.rfind(',').expect("a row has three fields")]
}

/// The lines of the quote and the depth; they agree.
fn asked(bids: &str, asks: &str) -> String {
    let (bid, ask) = (best(bids), best(asks));
    format!("Q,0,{bid},{ask}\nH,0{}{}\n", rows(bids), rows(asks))
}

/// The same where they are refused: all is empty.
fn refused(answer: u32) -> String {
    format!("Q,{answer},,,,\nH,{answer}{}\n", ",".repeat(60))
}

/// The same side with one thing changed that is there once.
fn with(side: &str, old: &str, new: &str) -> String {
    assert_eq!(side.matches(old).count(), 1, "{old} in {side}");
    side.replace(old, new)
}

/// The same side without its first rows.
fn behind(side: &str, count: usize) -> String {
    let rows: Vec<&str> = side.split_whitespace().skip(count).collect();
    rows.join(" ")
}

/// The same side without a row, and with another one behind the last.
fn moved_up(side: &str, gone: &str, last: &str) -> String {
    format!("{} {last}", with(side, &format!("{gone} "), ""))
}

/// A run of so many bytes on ABC, then steps; what is asked stands behind each. At the end the quote
/// stands once more, and no shares were traded.
fn assert_told(name: &str, bytes: u32, told: &[(&str, String)], whole: u32) {
    let lines: String = told
        .iter()
        .map(|(step, asked)| match *step {
            "run" => format!("X,1,{bytes}\n{asked}"),
            step => format!("S,{step}\n{asked}"),
        })
        .collect();
    let (_, last) = told.last().expect("a case is told");
    let quote = last.lines().next().expect("a quote");
    let text = format!("G,0\n{lines}{quote}\nV,0,0,{whole}\n");
    assert_eq!(probed(name), text, "{name}");
}

#[test]
fn ten_prices_a_side() {
    assert_told(
        "ten-levels-of-each-side",
        35 * 39,
        &[("run", asked(BIDS, ASKS))],
        1,
    );
}

/// A better price moves the others down, and the tenth is shown no more.
#[test]
fn the_eleventh_price() {
    let bids = format!("1235050,13,1 {}", with(BIDS, " 100,777,3", ""));
    let asks = format!("1235060,31,1 {}", with(ASKS, " 3000000,6,1", ""));
    assert_told(
        "the-eleventh-price-is-not-shown",
        42 * 39,
        &[
            ("run", asked(BIDS, ASKS)),
            ("0,39", asked(&bids, ASKS)),
            ("0,39", asked(&bids, &asks)),
        ],
        1,
    );
}

#[test]
fn nine_prices_and_ten() {
    let nine = with(BIDS, "1230000,10,4 ", "");
    let ten = with(BIDS, "1230000,10,4", "1230000,30,1");
    let nine_asks = with(ASKS, "1236001,17,1 ", "");
    assert_told(
        "nine-and-ten-prices",
        31 * 39,
        &[
            ("run", asked(&nine, ASKS)),
            ("0,39", asked(&ten, ASKS)),
            ("0,25", asked(&ten, &nine_asks)),
        ],
        1,
    );
}

/// 20 buys and 15 sells.
#[test]
fn one_side() {
    let lines = [
        "G,0\nX,1,780\n".to_string(),
        asked(BIDS, ""),
        "N\n".to_string(),
        refused(5),
        "G,0\n".to_string(),
        asked("", ""),
        "X,1,585\n".to_string(),
        asked("", ASKS),
        "Q,0,,,1235100,100\nV,0,0,1\n".to_string(),
    ];
    assert_eq!(probed("one-side-alone"), lines.concat());
}

#[test]
fn a_clear_empties_the_rows() {
    assert_told(
        "a-depth-after-a-clear",
        35 * 39,
        &[
            ("run", asked(BIDS, ASKS)),
            ("0,20", asked("", "")),
            ("0,39", asked("1234500,20,1", "")),
            ("7,17", refused(8)),
            ("0,20", asked("", "")),
            ("0,39", asked("", "1234600,30,1")),
        ],
        0,
    );
}

#[test]
fn prices_at_the_edges() {
    let bids = "4294967295,30,1 1,50,1 0,10,1";
    let asks = "0,40,1 4294967294,60,1 4294967295,20,1";
    let more_bids = with(bids, "0,10,1", "0,80,2");
    let more_asks = with(asks, "0,40,1", "0,120,2");
    let most_asks = with(&more_asks, "4294967295,20,1", "4294967295,110,2");
    let most_bids = with(&more_bids, "4294967295,30,1", "4294967295,4294967325,2");
    let steps = [
        asked("0,10,1", ""),
        asked("0,10,1", "4294967295,20,1"),
        asked("4294967295,30,1 0,10,1", "4294967295,20,1"),
        asked("4294967295,30,1 0,10,1", "0,40,1 4294967295,20,1"),
        asked(bids, "0,40,1 4294967295,20,1"),
        asked(bids, asks),
        asked(&more_bids, asks),
        asked(&more_bids, &more_asks),
        asked(&more_bids, &most_asks),
        asked(&most_bids, &most_asks),
    ];
    let mut told = vec![("run", asked("", ""))];
    told.extend(steps.map(|step| ("0,39", step)));
    assert_told("prices-0-and-all-ones", 0, &told, 1);
}

#[test]
fn each_side_is_shown_alone() {
    let asks = "1499,16,1 1500,13,3 1501,2,1";
    let fewer = "1499,16,1 1500,9,2 1501,2,1";
    assert_told(
        "a-price-on-both-sides",
        8 * 39,
        &[
            ("run", asked("1500,50,2 1499,20,1", asks)),
            ("0,25", asked("1500,40,1 1499,20,1", asks)),
            ("0,25", asked("1499,20,1", asks)),
            ("0,25", asked("1499,20,1", fewer)),
        ],
        1,
    );
    let bids = "2000,4,1 1990,160,2 1980,1,1 1005,512,1";
    let asks = "1000,336,3 1010,2,1 1995,8,1 2005,1024,1";
    assert_told("a-crossed-depth", 11 * 39, &[("run", asked(bids, asks))], 1);
}

#[test]
fn odd_lots() {
    let bids = "1000,150,3 999,1,1 998,199,2";
    let asks = "1001,151,2 1002,199,3 1003,100,1";
    let one_off = with(asks, "1003,100,1", "1003,99,1");
    assert_told(
        "odd-lots-at-a-level",
        12 * 39,
        &[
            ("run", asked(bids, asks)),
            ("0,42", asked(bids, &one_off)),
            (
                "0,42",
                asked(&with(bids, "1000,150,3", "1000,149,3"), &one_off),
            ),
        ],
        1,
    );
}

/// The messages behind twelve prices a side.
fn assert_changed(way: &str, size: u32, sides: &[(String, String)]) {
    let name = format!("an-emptied-level-lets-the-eleventh-in-by-{way}");
    let step = format!("0,{size}");
    let mut told = vec![("run", asked(BIDS, ASKS))];
    told.extend(sides.iter().map(|(bids, asks)| (&*step, asked(bids, asks))));
    assert_told(&name, 42 * 39, &told, 1);
}

#[test]
fn levels_emptied_by_deletes() {
    let one_left = with(BIDS, "1234900,125,2", "1234900,50,1");
    let bids = moved_up(&one_left, "1234900,50,1", ELEVENTH_BID);
    let best_left = with(ASKS, "1235100,100,2", "1235100,40,1");
    let asks = moved_up(&best_left, "1235100,40,1", ELEVENTH_ASK);
    let last_in = moved_up(&bids, "999999,12,1", "0,1,1");
    assert_changed(
        "delete",
        25,
        &[
            (one_left, ASKS.to_string()),
            (bids.clone(), ASKS.to_string()),
            (bids.clone(), best_left),
            (bids, asks.clone()),
            (last_in.clone(), asks.clone()),
            (behind(&last_in, 1), asks),
        ],
    );
}

/// A part that goes leaves the order at its price, whatever the price of the trade.
#[test]
fn levels_emptied_by_executions() {
    let part = with(BIDS, "1234900,125,2", "1234900,124,2");
    let one_left = with(BIDS, "1234900,125,2", "1234900,74,1");
    let bids = moved_up(&one_left, "1234900,74,1", ELEVENTH_BID);
    let nearly = with(ASKS, "1236000,12884901885,3", "1236000,8589934591,3");
    let asks = moved_up(&nearly, "1235200,1,1", ELEVENTH_ASK);
    let two_left = with(&asks, "1236000,8589934591,3", "1236000,8589934590,2");
    assert_changed(
        "execution",
        42,
        &[
            (part, ASKS.to_string()),
            (one_left, ASKS.to_string()),
            (bids.clone(), ASKS.to_string()),
            (bids.clone(), nearly),
            (bids.clone(), asks),
            (bids, two_left),
        ],
    );
}

/// The bids when order 12 has gone to the third price, with so many shares there, and when order 30 has a
/// price of its own, with its shares there.
fn moved_bids(third: u64, own: u32) -> [String; 2] {
    let joined = with(BIDS, "1234500,4294967299,3", &format!("1234500,{third},4"));
    let joined = moved_up(&joined, "1234499,100,1", ELEVENTH_BID);
    let split = with(
        &joined,
        "1234900,125,2",
        &format!("1234905,{own},1 1234900,50,1"),
    );
    let split = with(&split, &format!(" {ELEVENTH_BID}"), "");
    [joined, split]
}

/// The asks when order 1 has gone past the eleventh price, and when order 25 has the most shares.
fn moved_asks() -> [String; 2] {
    let gone = moved_up(ASKS, "1235250,250,1", ELEVENTH_ASK);
    let most = with(&gone, "1235100,100,2", "1235100,4294967335,2");
    [gone, most]
}

#[test]
fn levels_emptied_by_modifies() {
    let [joined, split] = moved_bids(4_294_967_399, 75);
    let [gone, most] = moved_asks();
    let back = with(
        &split,
        "1234500,4294967399,4",
        "1234500,4294967299,3 1234499,100,1",
    );
    let back = with(&back, " 100,777,3", "");
    assert_changed(
        "modify",
        35,
        &[
            (joined.clone(), ASKS.to_string()),
            (joined, gone.clone()),
            (split.clone(), gone),
            (split, most.clone()),
            (back, most),
        ],
    );
}

#[test]
fn levels_emptied_by_replaces() {
    let [joined, split] = moved_bids(4_294_967_400, 76);
    let [gone, most] = moved_asks();
    let own = with(&most, " 1236001,17,1", "");
    assert_changed(
        "replace",
        42,
        &[
            (joined.clone(), ASKS.to_string()),
            (joined, gone.clone()),
            (split.clone(), gone),
            (split.clone(), most),
            (split, format!("1235050,18,1 {own}")),
        ],
    );
}

/// Rows of one order each.
fn singles(levels: impl Iterator<Item = (u32, u32)>) -> String {
    let rows = levels.map(|(price, shares)| format!("{price},{shares},1 "));
    rows.collect()
}

/// The n-th buy has n shares at step 37 n of 64, the n-th sell 100 n at step 27 n: so 45 times a step
/// and 19 times a step tell the order at it, since 37 times 45 and 27 times 19 leave 1.
#[test]
fn many_prices() {
    let place = |times: u32, step: u32| (times * step + 63) % 64 + 1;
    let bids = (0..10).map(|row| (10_630 - 10 * row, place(45, 63 - row)));
    let asks = (0..10).map(|row| (10_640 + 7 * row, 100 * place(19, row)));
    let (bids, asks) = (singles(bids), singles(asks));
    assert!(bids.starts_with("10630,19,1 10620,38,1 10610,57,1 10600,12,1 "));
    assert!(asks.starts_with("10640,6400,1 10647,1900,1 10654,3800,1 "));
    assert_told(
        "levels-of-64-prices",
        128 * 39,
        &[("run", asked(&bids, &asks))],
        1,
    );
}

/// Books of 256 orders, each behind a clear.
fn assert_books(name: &str, books: &[[&str; 2]; 3]) {
    let mut text = "G,0\n".to_string();
    for [bids, asks] in books {
        let (none, some) = (asked("", ""), asked(bids, asks));
        text += &format!("S,0,20\n{none}X,1,9984\n{some}");
    }
    let [bids, asks] = books[2].map(best);
    assert_eq!(probed(name), format!("{text}Q,0,{bids},{asks}\nV,0,0,1\n"));
}

/// The n-th order has n shares at step 89 n of 256, or of 128: 89 times 233 leaves 1.
#[test]
fn most_prices() {
    let place = |step: u32, count: u32| (233 * step + count - 1) % count + 1;
    let buys = singles((0..10).map(|row| (100_255 - row, place(255 - row, 256))));
    let sells = singles((0..10).map(|row| (100_000 + 3 * row, place(row, 256))));
    assert!(buys.starts_with("100255,23,1 100254,46,1 100253,69,1 "));
    assert!(sells.starts_with("100000,256,1 100003,233,1 100006,210,1 "));
    let bids = singles((0..10).map(|row| (100_254 - 2 * row, place(127 - row, 128))));
    let asks = singles((0..10).map(|row| (100_001 + 2 * row, place(row, 128))));
    assert_books(
        "levels-of-256-prices",
        &[[&buys, ""], ["", &sells], [&bids, &asks]],
    );
}

/// 64, 128 and 256 times 4,294,967,295 shares.
#[test]
fn most_orders() {
    let asks = "1001,12884901885,3 1002,4294967295,1";
    assert_told(
        "64-orders-at-one-price",
        68 * 39,
        &[
            ("run", asked("1000,274877906880,64", asks)),
            ("0,25", asked("1000,270582939585,63", asks)),
            ("0,42", asked("1000,270582939584,63", asks)),
        ],
        1,
    );
    let (half, all) = ("1000,549755813760,128", "1000,1099511627520,256");
    assert_books(
        "256-orders-at-one-price",
        &[[all, ""], ["", all], [half, half]],
    );
}

/// Step s has s + 1 orders, numbers s (s + 1) / 2 and the s after it, but the last step, 15, has eight.
/// A buy has one share more than its number, a sell as many fewer than the most.
fn full_step(step: u64) -> (u64, u64) {
    let count = if step == 15 { 8 } else { step + 1 };
    let first = step * (step + 1) / 2;
    (count, count * first + count * (count - 1) / 2)
}

fn full_bids() -> String {
    let row = |step| {
        let (count, numbers) = full_step(step);
        format!("{},{},{count} ", 10_000 - 10 * step, numbers + count)
    };
    (0..10).map(row).collect()
}

/// The best ask is that of the last step.
fn full_asks() -> String {
    let row = |step| {
        let (count, numbers) = full_step(step);
        let shares = count * 4_294_967_295 - numbers;
        format!("{},{shares},{count} ", 20_000 - 10 * step)
    };
    (6..16).rev().map(row).collect()
}

#[test]
fn a_full_book() {
    let (bids, asks) = (full_bids(), full_asks());
    assert!(bids.starts_with("10000,1,1 9990,5,2 9980,15,3 9970,34,4 "));
    assert!(asks.starts_with("19850,34359737372,8 19860,64424507745,15 "));
    let behind_first = format!("{} 9900,671,11", behind(&bids, 1));
    let better = with(&bids, "10000,1,1", "10001,5,1");
    let seven = with(&asks, "19850,34359737372,8", "19850,30064770197,7");
    let changed = with(&better, "9990,5,2 9980,15,3", "9990,3,1 9980,22,4");
    assert_told(
        "a-depth-of-a-full-book",
        256 * 39,
        &[
            ("run", asked(&bids, &asks)),
            ("0,25", asked(&behind_first, &asks)),
            ("0,39", asked(&better, &asks)),
            ("0,42", asked(&better, &seven)),
            ("0,35", asked(&changed, &seven)),
            ("10,39", refused(8)),
        ],
        0,
    );
}

/// Of no symbol, and by a gap, a misfit and a full book until the clear.
#[test]
fn refused_depths() {
    let ten = format!("X,1,1365\n{}", asked(BIDS, ASKS));
    let (stale, none) = (refused(8), asked("", ""));
    let lines = [
        format!("{}G,0\n{none}{ten}{}", refused(5), refused(5)),
        format!("S,7,17\n{stale}S,8,17\n{stale}S,0,20\n{none}{ten}"),
        format!("S,9,25\n{stale}S,8,39\n{stale}S,0,20\n{none}"),
        format!("X,1,9984\n{}", asked(&full_bids(), &full_asks())),
        format!("S,10,39\n{stale}S,0,20\n{none}H,5{}\n", ",".repeat(60)),
    ];
    assert_eq!(probed("a-depth-that-is-refused"), lines.concat());
}

#[test]
fn two_symbols() {
    let first = asked("1003,4,1 1001,9,2", "1002,82,3 1010,32,1");
    let fewer = asked("1001,9,2", "1002,82,3 1010,32,1");
    // The eleventh ask, at 1016, is not shown.
    let asks = "1004,101,1 1005,102,1 1007,104,1 1008,105,1 1009,106,1 \
        1010,107,1 1011,108,1 1012,109,1 1013,110,1 1014,111,1";
    let second = asked("1002,330,2 1001,3000,1", asks);
    let one_off = asked("1002,300,1 1001,3000,1", asks);
    let other = asked(
        "1002,300,1 1001,3000,1",
        &with(asks, "1004,101,1", "1004,9,1"),
    );
    let (stale, none) = (refused(8), asked("", ""));
    let lines = [
        format!("G,0\n{none}{}G,0\n", refused(5)),
        format!("X,1,273\n{first}{none}X,1,546\n{first}{second}"),
        format!("S,0,25\n{fewer}{second}S,0,42\n{fewer}{one_off}"),
        format!("S,7,17\n{stale}{one_off}S,0,35\n{stale}{other}"),
        format!("S,0,20\n{stale}{none}S,0,20\n{none}{none}"),
        format!("S,0,39\n{none}{}", asked("1000,1,1", "")),
    ];
    assert_eq!(probed("depths-of-two-symbols"), lines.concat());
}

/// The p-th symbol has its prices at 1,000 p, and orders of p shares and of multiples.
#[test]
fn eight_symbols() {
    let mut books: Vec<String> = (1..=8)
        .map(|p| {
            let bids = [(8, 20), (5, 10)].map(|(at, times)| (1_000 * p + at, times * p));
            let asks = format!("{}10,{},2 {}20,{p},1", p * 10, 5 * p, p * 10);
            asked(&singles(bids.into_iter()), &asks)
        })
        .collect();
    let before = books.concat();
    books[3] = asked("", "");
    books[7] = refused(8);
    let after = books.concat();
    let registered = "G,0\n".repeat(8);
    assert_eq!(
        probed("depths-of-eight-symbols"),
        format!("{registered}X,1,1560\n{before}S,0,20\nS,7,17\n{after}")
    );
}

fn printed_levels(name: &str) -> String {
    let mut bytes = named(&format!("{name}.feed"));
    let mut page = Vec::new();
    painterend_levels(&mut bytes, &mut page).expect("memory reads and writes");
    String::from_utf8(page).expect("a page is ASCII")
}

/// The lines behind the quote of a page with these rows, whose prices have a point.
fn page_end(bids: &str, asks: &str) -> String {
    let lines = |letter: &str, side: &str| {
        let mut rows: Vec<&str> = side.split_whitespace().collect();
        rows.resize(10, ",,");
        let lines = rows.iter().map(|row| format!("D,{letter},{row}\n"));
        lines.collect::<String>()
    };
    let (bid, ask) = (best(bids), best(asks));
    format!(
        "E,1\nQ,{bid},{ask}\n{}{}",
        lines("B", bids),
        lines("S", asks)
    )
}

const PAGE_BIDS: &str = "123.5000,200,1 123.4900,125,2 123.4500,4294967299,3 123.4499,100,1 \
    123.3000,399,2 123.0000,10,4 120.0005,5000,1 100.0000,8589934590,2 99.9999,12,1 0.0100,777,3";
const PAGE_ASKS: &str = "123.5100,100,2 123.5200,1,1 123.5250,250,1 123.6000,12884901885,3 \
    123.6001,17,1 124.0000,1099,2 130.0000,33,1 199.9999,450,1 200.0000,88,2 300.0000,6,1";

#[test]
fn levels_on_the_page() {
    let better_bids = format!("123.5050,13,1 {}", with(PAGE_BIDS, " 0.0100,777,3", ""));
    let better_asks = format!("123.5060,31,1 {}", with(PAGE_ASKS, " 300.0000,6,1", ""));
    for (name, bids, asks) in [
        ("A", "", ""),
        ("levels-of-an-emptied-book", "", ""),
        ("levels-of-a-cleared-book", "", ""),
        ("ten-levels-of-each-side", PAGE_BIDS, PAGE_ASKS),
        (
            "the-eleventh-price-is-not-shown",
            &better_bids,
            &better_asks,
        ),
        (
            "prices-with-leading-zeros",
            "0.5000,90,1 0.0500,70,1 0.0050,20,1 0.0005,30,1 0.0000,50,1",
            "1.0000,80,1 1.0005,40,1 2.0050,60,1 123.0045,10,1",
        ),
        (
            "a-crossed-depth",
            "0.2000,4,1 0.1990,160,2 0.1980,1,1 0.1005,512,1",
            "0.1000,336,3 0.1010,2,1 0.1995,8,1 0.2005,1024,1",
        ),
        (
            "64-orders-at-one-price",
            "0.1000,270582939584,63",
            "0.1001,12884901885,3 0.1002,4294967295,1",
        ),
        (
            "the-largest-sizes-of-both-sides",
            "0.1000,549755813760,128",
            "0.1000,549755813760,128",
        ),
    ] {
        let page = printed_levels(name);
        let (_, end) = page.split_at(page.find("E,1").expect("an end"));
        assert_eq!(end, page_end(bids, asks), "{name}");
    }
}

#[test]
fn no_levels_of_a_stale_symbol() {
    let page = printed_levels("levels-of-a-stale-end");
    assert!(page.ends_with("R,7,36\nE,1\nQ,8\nD,8\n"), "{page}");
    for name in ["the-257th-answers-10", "K-71", "G"] {
        let page = printed_levels(name);
        assert!(page.ends_with("E,1\nQ,8\nD,8\n"), "{name}: {page}");
    }
}

/// Without the option nothing of it is printed.
#[test]
fn levels_stand_behind_the_page() {
    for name in ["A", "B", "G", "J", "ten-levels-of-each-side"] {
        let (page, with_levels) = (printed(name), printed_levels(name));
        let levels = with_levels.strip_prefix(&*page);
        let levels = levels.expect("the same page first");
        assert!(levels.lines().all(|line| line.starts_with("D,")), "{name}");
        let count = if page.ends_with("Q,8\n") { 1 } else { 20 };
        assert_eq!(levels.lines().count(), count, "{name}");
        assert!(page.lines().all(|line| !line.starts_with("D,")), "{name}");
    }
}

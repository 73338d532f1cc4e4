//! What is printed of the named cases of request M-104, line by line, worked out by the rules of
//! document 01. Sizes: an add has 39 bytes, a modify 35, a delete 25, an execute and a replace 42, a
//! clear 20, a retail 17.

mod common;

use common::{printed, probed};

/// What a step that makes the symbol stale, or finds it so, leaves.
const STALE: &str = "Q,8,,,,\nV,0,0,0\n";

/// The quote and the volume of 256 buys of 10 shares: 51 are at the best price, those whose numbers
/// end in 4 and 9.
const FULL: &str = "Q,0,1004,510,,\nV,0,0,1\n";

/// The lines of so many buys of 10 shares, each a step with the quote and the volume after it. The
/// n-th is at 1,000 and what n leaves when it is divided by 5.
fn buys(count: u32) -> String {
    let lines = (1..=count).map(|number| {
        let (price, orders) = match number {
            1..=3 => (1000 + number, 1),
            _ => (1004, (number + 1) / 5),
        };
        format!("S,0,39\nQ,0,{price},{},,\nV,0,0,1\n", 10 * orders)
    });
    format!("G,0\n{}", lines.collect::<String>())
}

/// The same on the page.
fn printed_buys(count: u32) -> String {
    let lines = (1..=count).map(|number| {
        let price = number % 5;
        let line = format!("100,{number},09:30:00.000000125,ABC,{number},{number}");
        format!("{line},0.100{price},10,B,FIRM1,0\n")
    });
    lines.collect()
}

/// The messages as steps behind 256 buys, and all of them as a run of so many bytes.
fn assert_behind_256(name: &str, steps: &str, bytes: u32) {
    assert_eq!(probed(name), format!("{}{steps}", buys(256)), "{name}");
    assert_at_once(name, steps, 256 * 39 + bytes);
}

/// A run ends with the quote and the volume that the last step has.
fn assert_at_once(name: &str, steps: &str, bytes: u32) {
    let last = steps.rfind("Q,").expect("a quote after each step");
    let run = format!("G,0\nX,1,{bytes}\n{}", &steps[last..]);
    assert_eq!(probed(&format!("{name}-at-once")), run, "{name}");
}

#[test]
fn the_256th_is_added_and_the_257th_answers_10() {
    for (name, count, end) in [
        ("the-255th-live", 255, String::new()),
        ("the-256th-live", 256, String::new()),
        ("the-257th-answers-10", 256, format!("S,10,39\n{STALE}")),
    ] {
        let steps = buys(count) + &end;
        assert_eq!(probed(name), steps, "{name}");
        let refused = u32::from(!end.is_empty());
        assert_at_once(name, &steps, 39 * (count + refused));
    }
}

#[test]
fn a_page_of_256_lines() {
    let page = printed_buys(256);
    assert_eq!(
        printed("the-256th-live"),
        format!("{page}E,1\nQ,0.1004,510,,\n")
    );
    assert_eq!(
        printed("the-257th-answers-10"),
        format!("{page}R,10,257\nE,1\nQ,8\n")
    );
}

/// Behind the clear each sell is at a better price than those before it, and has as many shares as its
/// number says.
#[test]
fn a_clear_makes_room_for_256_again() {
    let sells = (257..=512).map(|number| {
        let price = 5000 - number;
        format!("S,0,39\nQ,0,,,{price},{number}\nV,0,0,0\n")
    });
    let steps = format!(
        "S,10,39\n{STALE}S,0,20\nQ,0,,,,\nV,0,0,0\n{}S,10,39\n{STALE}",
        sells.collect::<String>()
    );
    let bytes = 39 + 20 + 257 * 39;
    assert_behind_256("a-clear-makes-room-for-256-again", &steps, bytes);
}

/// The orders that go are not at the best price.
#[test]
fn as_many_orders_come_as_go() {
    let steps = format!(
        "\
S,0,25\n{FULL}S,0,39\nQ,0,1004,510,5000,1\nV,0,0,1
S,0,42\nQ,0,1004,510,5000,1\nV,0,0,1
S,0,39\nQ,0,1004,510,4000,2\nV,0,0,1
S,10,39\n{STALE}"
    );
    assert_behind_256("freed-room-is-used-again", &steps, 184);
    let steps = format!(
        "\
S,0,25\n{FULL}S,0,42\n{FULL}S,0,42\nQ,0,2000,5,,\nV,0,0,1
S,0,39\nQ,0,2001,6,,\nV,0,0,1
S,0,39\nQ,0,2002,7,,\nV,0,0,1
S,10,39\n{STALE}"
    );
    assert_behind_256("two-places-free-of-256", &steps, 226);
}

/// Three messages for each of six orders, whose prices rise with their numbers from 257 on.
#[test]
fn a_full_book_lets_its_orders_be_changed() {
    let changes = (257..275).step_by(3).map(|number| {
        let [price, last] = [2000 + number, 2002 + number];
        format!(
            "\
S,0,35\nQ,0,{price},20,,\nV,0,0,1
S,0,42\nQ,0,{price},15,,\nV,0,0,1
S,0,42\nQ,0,{last},30,,\nV,0,0,1
"
        )
    });
    let steps = format!("{}S,10,39\n{STALE}", changes.collect::<String>());
    assert_behind_256("changes-with-256-live", &steps, 6 * 119 + 39);
}

/// By an unused number, by itself and by one that went; another live number does not fit.
#[test]
fn a_full_book_lets_its_orders_be_replaced() {
    let steps = format!(
        "\
S,0,42\nQ,0,2000,7,,\nV,0,0,1
S,0,42\nQ,0,3000,8,,\nV,0,0,1
S,0,42\nQ,0,3000,17,,\nV,0,0,1
S,10,39\n{STALE}"
    );
    assert_behind_256("replace-with-256-live", &steps, 165);
    let steps = format!("S,0,42\n{FULL}S,10,39\n{STALE}");
    assert_behind_256("replace-of-the-last-order", &steps, 81);
    let steps = format!("S,9,42\n{STALE}");
    assert_behind_256("replace-by-a-live-number-with-256-live", &steps, 42);
}

#[test]
fn every_other_check_comes_before_room() {
    for (name, refused, bytes) in [
        ("gap-and-full", format!("S,7,39\n{STALE}"), 39),
        (
            "stale-and-full",
            format!("S,7,17\n{STALE}S,8,39\n{STALE}"),
            56,
        ),
        (
            "low-and-full",
            format!("S,6,39\n{FULL}S,10,39\n{STALE}"),
            78,
        ),
        (
            "bad-side-and-full",
            format!("S,4,39,32\n{FULL}S,10,39\n{STALE}"),
            78,
        ),
        (
            "add-of-a-live-order-with-256-live",
            format!("S,9,39\n{STALE}S,8,17\n{STALE}"),
            56,
        ),
    ] {
        assert_behind_256(name, &refused, bytes);
    }
    let page = printed_buys(256);
    assert_eq!(
        printed("bad-side-and-full"),
        format!("{page}R,4,257,32\nR,10,258\nE,1\nQ,8\n")
    );
}

/// A quote with one side: buys before the two commas of no sells, or the other way round.
fn quote(sides: &str, price: u32, size: u64) -> String {
    match sides {
        "buys" => format!("Q,0,{price},{size},,\nV,0,0,1\n"),
        _ => format!("Q,0,,,{price},{size}\nV,0,0,1\n"),
    }
}

/// 256 times 4,294,967,295 shares.
#[test]
fn the_largest_level() {
    for sides in ["buys", "sells"] {
        let name = format!("256-largest-{sides}-at-one-price");
        let steps = (1..=256).map(|count| {
            let size = count * 4_294_967_295;
            format!("S,0,39\n{}", quote(sides, 1000, size))
        });
        let steps = steps.collect::<String>();
        assert_eq!(probed(&name), format!("G,0\n{steps}"), "{name}");
        assert!(steps.ends_with(&quote(sides, 1000, 1_099_511_627_520)));
        assert_at_once(&name, &steps, 256 * 39);
    }
    let page = printed("256-largest-buys-at-one-price");
    assert!(page.ends_with("E,1\nQ,0.1000,1099511627520,,\n"), "{page}");
    let page = printed("256-largest-sells-at-one-price");
    assert!(page.ends_with("E,1\nQ,,,0.1000,1099511627520\n"), "{page}");
}

/// The n-th order has n shares, 256 have 32,896. The best one, first or last, is deleted at the end.
#[test]
fn the_best_of_256_orders() {
    for (sides, better) in [("buys", 1001), ("sells", 999)] {
        let sum = |count: u64| count * (count + 1) / 2;
        let first = (1..=256).map(|_| quote(sides, better, 1));
        let last = (1..=255)
            .map(|count| quote(sides, 1000, sum(count)))
            .chain([quote(sides, better, 256)]);
        let cases: [(&str, Vec<String>, u64); 2] = [
            ("first", first.collect(), 32_895),
            ("last", last.collect(), 32_640),
        ];
        for (best, quotes, rest) in cases {
            let name = format!("the-{best}-of-256-{sides}-is-the-best");
            let adds = quotes.iter().map(|quote| format!("S,0,39\n{quote}"));
            let end = format!("S,0,25\n{}", quote(sides, 1000, rest));
            let steps = adds.collect::<String>() + &end;
            assert_eq!(probed(&name), format!("G,0\n{steps}"), "{name}");
            assert_at_once(&name, &steps, 256 * 39 + 25);
        }
    }
}

/// Shares of each sell, by symbol. Of 256 sells 85 are at the best price, those whose numbers are
/// multiples of 3.
const SHARES: [u32; 8] = [8, 1, 96, 2, 3, 4, 1, 9];

/// The quote and the volume of each symbol: full, or as said.
fn asked(others: &[(usize, &str)]) -> String {
    let mut lines = SHARES.map(|shares| format!("Q,0,,,500,{}\nV,0,0,1\n", 85 * shares));
    for (place, other) in others {
        lines[*place] = other.to_string();
    }
    lines.concat()
}

/// 2,048 adds in two runs, and what is asked then.
fn eight_full() -> String {
    let registered = "G,0\n".repeat(8);
    format!("{registered}X,1,39936\nX,1,39936\n{}", asked(&[]))
}

/// One order is replaced; one more answers 10, and a clear follows; a live one answers 9; an order goes
/// and another one comes.
#[test]
fn eight_full_symbols() {
    let better = "Q,0,,,1,1\nV,0,0,1\n";
    let steps = "S,0,42\nS,10,39\nS,0,20\nS,9,39\nS,0,25\nS,0,39\n";
    let end = asked(&[
        (3, better),
        (4, "Q,0,,,,\nV,0,0,0\n"),
        (5, STALE),
        (7, better),
    ]);
    assert_eq!(
        probed("eight-full-symbols"),
        format!("{}{steps}{end}", eight_full())
    );
}

/// Each symbol is stale until its own clear.
#[test]
fn eight_full_symbols_and_one_more_in_each() {
    let mut all: Vec<(usize, &str)> = (0..8).map(|place| (place, STALE)).collect();
    let stale = asked(&all);
    all[0].1 = "Q,0,,,,\nV,0,0,0\n";
    let cleared = asked(&all);
    all[0].1 = "Q,0,,,500,680\nV,0,0,0\n";
    let filled = asked(&all);
    let lines = format!(
        "{}{}{stale}S,0,20\n{cleared}X,1,9984\n{filled}{}{filled}",
        eight_full(),
        "S,10,39\n".repeat(8),
        "S,8,17\n".repeat(7)
    );
    assert_eq!(probed("eight-full-symbols-and-one-more-in-each"), lines);
}

/// The other seven quote as before.
#[test]
fn eight_full_symbols_and_the_first_cleared() {
    let cleared = asked(&[(0, "Q,0,,,,\nV,0,0,1\n")]);
    let lines = format!("{}S,0,20\n{cleared}X,1,9984\n{}", eight_full(), asked(&[]));
    assert_eq!(probed("eight-full-symbols-and-the-first-cleared"), lines);
}

//! What is printed of the named cases of request M-101, line by line, written by hand by the rules of
//! document 01. The fill of a book gives its k-th order k shares. Buys have odd shares, in a book of
//! 256 in all 128 times 128, and sells even ones, 128 times 129. The n-th call, from 0 on, bids 10,000
//! and n and asks 20,000 less n.

mod common;

use common::{printed, probed};

/// The lines of a book of 256.
const FILLED: &str = "G,0\nX,1,9984\nQ,0,10000,16384,20000,16512\n";

/// The same, and all of its orders found.
const FULL: &str =
    "G,0\nX,1,9984\nQ,0,10000,16384,20000,16512\nX,1,8960\nQ,0,10001,16384,19999,16512\n";

/// What follows in a stale symbol: a run that finds two orders, a delete, an add and a clear.
const STALE: &str = "X,1,70\nQ,8,,,,\nS,8,25\nQ,8,,,,\nS,8,39\nQ,8,,,,\nS,0,20\nQ,0,,,,\n";

/// The end: as the n-th call so many orders come again, then all of them are found. The odd shares
/// up to the k-th are a square, the even ones twice a triangle.
fn again(call: u32, orders: u32, whole: u8) -> String {
    let even = orders / 2;
    let odd = orders - even;
    let (bids, asks) = (odd * odd, even * (even + 1));
    let quote = |call| format!("Q,0,{},{bids},{},{asks}\n", 10_000 + call, 20_000 - call);
    let (filled, found) = (quote(call), quote(call + 1));
    let (adds, finds) = (39 * orders, 35 * orders);
    format!("X,1,{adds}\n{filled}X,1,{finds}\n{found}{found}V,0,0,{whole}\n")
}

#[test]
fn a_full_family_has_no_room_for_one_more() {
    let adds = "S,10,39\nQ,8,,,,\nX,1,35\nQ,8,,,,\nS,8,39\nQ,8,,,,\n";
    let end = again(9, 256, 0);
    assert_eq!(
        probed("a-full-family-and-two-more-adds"),
        format!("{FULL}{adds}{STALE}{end}")
    );
}

#[test]
fn one_free_place_of_a_family_is_used_once() {
    // The middle is the 129th, a buy.
    for (free, bids, asks) in [
        ("first", 16383, 16512),
        ("middle", 16255, 16512),
        ("last", 16384, 16256),
    ] {
        let lines = format!(
            "\
{FILLED}S,0,25\nQ,0,10000,{bids},20000,{asks}
X,1,8925\nQ,0,10002,{bids},19998,{asks}
S,0,39\nQ,0,10002,{bids},19997,500
X,1,35\nQ,0,10002,{bids},19996,500
S,10,39\nQ,8,,,,
{STALE}{}",
            again(10, 255, 0)
        );
        let name = format!("a-family-without-its-{free}-and-two-more-adds");
        assert_eq!(probed(&name), lines, "{name}");
    }
}

#[test]
fn a_live_order_does_not_fit_again_wherever_a_place_is_free() {
    // After the replace the order that it was to be is looked for.
    let tries = [
        ("an-add-of-the-last", "S,9,39\nQ,8,,,,\n", 7),
        (
            "a-replace-of-the-first-by-the-last",
            "S,9,42\nQ,8,,,,\nX,1,35\nQ,8,,,,\n",
            8,
        ),
    ];
    for (name, refused, call) in tries {
        let full = format!("a-full-family-and-{name}");
        let end = again(call, 256, 0);
        assert_eq!(
            probed(&full),
            format!("{FULL}{refused}{STALE}{end}"),
            "{full}"
        );
        for (free, bids, asks) in [("first", 16383, 16512), ("middle", 16255, 16512)] {
            let lines = format!(
                "\
{FILLED}S,0,25\nQ,0,10000,{bids},20000,{asks}
X,1,8925\nQ,0,10002,{bids},19998,{asks}
{refused}{STALE}{}",
                again(call + 1, 255, 0)
            );
            let name = format!("a-family-without-its-{free}-and-{name}");
            assert_eq!(probed(&name), lines, "{name}");
        }
    }
}

#[test]
fn a_full_family_lets_an_order_be_replaced() {
    // The new order is found; then two more are, the 129th and the 256th.
    let replaced = format!(
        "\
{FULL}S,0,42\nQ,0,10002,500,19999,16512
X,1,35\nQ,0,10003,500,19999,16512
X,1,70\nQ,0,10004,129,19996,256
"
    );
    let itself = "\
S,0,25\nQ,0,10004,129,19996,256
S,0,39\nQ,0,10004,129,19994,7
S,0,20\nQ,0,,,,
";
    let gone = "S,9,25\nQ,8,,,,\nS,8,39\nQ,8,,,,\nS,0,20\nQ,0,,,,\n";
    for (by, lines, whole) in [
        ("itself", itself, 1),
        ("an-unused-one", gone, 0),
        ("0", gone, 0),
    ] {
        let name = format!("a-full-family-and-a-replace-of-the-first-by-{by}");
        let end = again(8, 256, whole);
        assert_eq!(probed(&name), format!("{replaced}{lines}{end}"), "{name}");
    }
}

/// The first and the last are of two families, and the 129th may be gone.
#[test]
fn no_order_is_replaced_by_a_live_one_of_another_family() {
    let refused = "S,9,42\nQ,8,,,,\nS,0,20\nQ,0,,,,\n";
    let full = format!("{FULL}{refused}{}", again(4, 256, 0));
    let less_one = format!(
        "\
{FILLED}X,1,25\nQ,0,10000,16255,20000,16512
X,1,8925\nQ,0,10002,16255,19998,16512
{refused}{}",
        again(5, 256, 0)
    );
    for sums in ["next-sums", "sums-89-apart"] {
        for replace in ["the-first-by-the-last", "the-last-by-the-first"] {
            for (book, lines) in [("full", &full), ("less-one", &less_one)] {
                let name = format!("two-families-of-{sums}-{book}-and-a-replace-of-{replace}");
                assert_eq!(&probed(&name), lines, "{name}");
            }
        }
    }
}

/// A quote's level: none without shares.
fn level(price: u32, shares: u32) -> String {
    match shares {
        0 => ",".to_string(),
        _ => format!("{price},{shares}"),
    }
}

/// Each delete leaves the prices of the find before it, each find puts all orders at its own. A find
/// comes after every fourth delete: the first find is call 1, and each further one five calls later.
#[test]
fn each_order_of_a_family_is_found_until_it_goes() {
    let orders: [(&str, Vec<u32>); 3] = [
        ("from-the-first-on", (1..=256).collect()),
        ("from-the-last-on", (1..=256).rev().collect()),
        (
            "from-the-middle-outwards",
            (1..=128).flat_map(|far| [128 + far, 129 - far]).collect(),
        ),
    ];
    for (name, leaving) in orders {
        let mut lines = FULL.to_string();
        let (mut bids, mut asks) = (16384, 16512);
        let mut find = 1;
        for (gone, shares) in (1..).zip(leaving) {
            if shares % 2 == 1 {
                bids -= shares;
            } else {
                asks -= shares;
            }
            let quote = |find: u32| {
                let bid = level(10_000 + find, bids);
                format!("Q,0,{bid},{}\n", level(20_000 - find, asks))
            };
            lines += &format!("S,0,25\n{}", quote(find));
            if gone % 4 == 0 && gone < 256 {
                find += 5;
                let size = 35 * (256 - gone);
                lines += &format!("X,1,{size}\n{}", quote(find));
            }
        }
        // The last find was call 316, and four deletes followed it. The first is added after a delete
        // that misses and a clear, with 70 shares, and the other 255 beside it.
        lines += "S,9,25\nQ,8,,,,\nS,0,20\nQ,0,,,,\n";
        lines += "S,0,39\nQ,0,10323,70,,\nX,1,35\nQ,0,10324,70,,\n";
        lines += "X,1,9945\nQ,0,10325,16384,19675,16256\n";
        lines += "X,1,8960\nQ,0,10326,16454,19674,16256\nQ,0,10326,16454,19674,16256\nV,0,0,0\n";
        assert_eq!(probed(&format!("a-full-family-emptied-{name}")), lines);
    }
}

/// The changes of order 0, and their sizes.
const OF_ORDER_0: [(&str, u32); 4] = [
    ("a-modify", 35),
    ("a-delete", 25),
    ("an-execute", 42),
    ("a-replace", 42),
];

/// Order 0 is the number that an unused place may hold.
#[test]
fn order_0_is_not_live_before_it_is_added() {
    for (change, size) in OF_ORDER_0 {
        let name = format!("{change}-of-order-0-in-an-empty-book");
        let quote = "Q,0,10004,30,,\n";
        let lines = format!(
            "\
G,0
S,9,{size}\nQ,8,,,,
S,8,39\nQ,8,,,,
S,0,20\nQ,0,,,,
S,0,39\nQ,0,10003,20,,
S,0,35\n{quote}{quote}V,0,0,0
"
        );
        assert_eq!(probed(&name), lines, "{name}");
    }
}

/// The first of four goes, which is order 0, or the first of three others of its family.
#[test]
fn an_empty_place_is_not_order_0() {
    let four = "X,1,156\nQ,0,10000,4,20000,6\nS,0,25\nQ,0,10000,3,20000,6\n";
    let three = "X,1,117\nQ,0,10000,4,20000,2\nS,0,25\nQ,0,10000,3,20000,2\n";
    for (change, size) in OF_ORDER_0 {
        for (state, filled) in [("it", four), ("another", three)] {
            let name = format!("{change}-of-order-0-after-{state}-went");
            let quote = "Q,0,10006,30,,\n";
            let lines = format!(
                "\
G,0
{filled}S,9,{size}\nQ,8,,,,
S,8,39\nQ,8,,,,
S,0,20\nQ,0,,,,
S,0,39\nQ,0,10005,20,,
S,0,35\n{quote}{quote}V,0,0,0
"
            );
            assert_eq!(probed(&name), lines, "{name}");
        }
    }
    let lines = format!(
        "\
G,0
{three}S,0,39\nQ,0,10000,3,19998,10
S,0,35\nQ,0,10000,3,19997,20
X,1,105\nQ,0,10004,3,19996,22
S,0,25\nQ,0,10004,3,19996,2
X,1,70\nQ,0,10006,3,19994,2
S,9,25\nQ,8,,,,
S,0,20\nQ,0,,,,
S,0,39\nQ,0,10009,70,,
X,1,35\nQ,0,10010,70,,\nQ,0,10010,70,,\nV,0,0,0
"
    );
    assert_eq!(probed("an-add-of-order-0-after-another-went"), lines);
}

/// In the first and the seventh symbol stand the four orders that are added in the eighth.
#[test]
fn the_neighbours_of_the_eighth_symbol_stay() {
    let neighbours = "Q,0,500,4,,\nQ,0,,,500,8\n";
    let calls: String = [
        "X,1,117\nQ,0,10000,4,20000,2\n",
        "S,0,25\nQ,0,10000,3,20000,2\n",
        "S,9,25\nQ,8,,,,\n",
        "S,8,39\nQ,8,,,,\n",
        "S,0,20\nQ,0,,,,\n",
        "S,0,39\nQ,0,10005,20,,\n",
        "S,0,35\nQ,0,10006,30,,\n",
    ]
    .map(|call| format!("{call}{neighbours}"))
    .concat();
    let lines = format!(
        "\
{}X,1,156\nX,1,156
{calls}X,1,140\nX,1,140
Q,0,10006,30,,\nQ,0,600,4,,\nQ,0,,,600,8
V,0,0,0\nV,0,0,1\nV,0,0,1
",
        "G,0\n".repeat(8)
    );
    let name = "a-delete-of-order-0-after-another-went-in-the-eighth-symbol";
    assert_eq!(probed(name), lines);
}

/// 160 members of a family and the first 80 of them with another bit, from that call on. The last 80
/// with the other bit come and go; then the first 80 members go, and come again with 600 shares when
/// the number beside them was found.
fn two_of_each_number(first: u32) -> String {
    let (bid, ask) = (10_000 + first, 20_000 - first);
    // 240 orders: odd shares are 120 times 120, even ones 120 times 121.
    let filled = format!("Q,0,{bid},14400,{ask},14520\n");
    let mut lines = format!("X,1,9360\n{filled}");
    for turn in 0..80 {
        let added = bid + 2 * turn + 1;
        lines += &format!("S,0,39\nQ,0,{added},500,{ask},14520\nS,0,25\n{filled}");
    }
    // The first buy and the first sell that go are seen to go; after that other prices are better.
    let mut bids = format!("{bid},14399");
    let mut asks = format!("{ask},14520");
    for shares in 1..=80 {
        if shares == 2 {
            asks = format!("{ask},14518");
        }
        lines += &format!("S,0,25\nQ,0,{bids},{asks}\n");
        let call = 159 + 3 * shares;
        if shares % 2 == 1 {
            bids = format!("{},{}", bid + call, 160 + shares);
        } else {
            asks = format!("{},{}", ask - call, 160 + shares);
        }
        lines += &format!("X,1,35\nQ,0,{bids},{asks}\n");
        bids = format!("{},600", bid + call + 1);
        lines += &format!("S,0,39\nQ,0,{bids},{asks}\n");
    }
    // Buys: 80 times 600, the odd shares from 81 to 239; sells: the even ones from 82 to 240.
    let (bid, ask) = (bid + 401, ask - 401);
    lines + &format!("X,1,8400\nQ,0,{bid},60800,{ask},12880\n")
}

#[test]
fn numbers_that_differ_in_one_bit_are_two() {
    let end = "Q,0,10401,60800,19599,12880\nV,0,0,1\n";
    assert_eq!(
        probed("numbers-that-differ-in-the-highest-bit"),
        format!("G,0\n{}{end}", two_of_each_number(0))
    );
    // Four bits, each after a clear: 403 calls.
    let bits = [1, 404, 807, 1_210].map(two_of_each_number);
    let bits = bits.map(|lines| format!("S,0,20\nQ,0,,,,\n{lines}"));
    let end = "Q,0,11611,60800,18389,12880\nV,0,0,1\n";
    assert_eq!(
        probed("numbers-that-differ-in-one-high-bit"),
        format!("G,0\n{}{end}", bits.concat())
    );
}

/// 0 and 2^32 are buys, 1 and 2^64 - 1 sells.
#[test]
fn orders_at_the_edges_stand_side_by_side() {
    let text = probed("orders-at-the-edges-once");
    let first_half = "\
G,0
S,0,39\nQ,0,10000,10,,
S,0,39\nQ,0,10000,10,19999,20
S,0,39\nQ,0,10002,30,19999,20
S,0,39\nQ,0,10002,30,19997,40
X,1,140\nQ,0,10004,40,19996,60
S,0,35\nQ,0,10004,40,19995,21
S,0,42\nQ,0,10004,40,19995,18
S,0,25\nQ,0,10004,40,19996,40
X,1,105\nQ,0,10008,40,19992,40
S,0,35\nQ,0,10008,40,19991,23
S,0,42\nQ,0,10008,40,19991,20
S,0,25\nQ,0,10008,40,,
X,1,70\nQ,0,10012,40,,
S,0,35\nQ,0,10013,20,,
S,0,42\nQ,0,10013,17,,
S,0,25\nQ,0,10012,30,,
X,1,35\nQ,0,10016,30,,
S,0,35\nQ,0,10017,22,,
S,0,42\nQ,0,10017,19,,
S,0,25\nQ,0,,,,
S,0,39\nQ,0,10020,10,,
";
    assert_eq!(text.get(..first_half.len()), Some(first_half));
    // After 40 calls all four come, and 1 and 2^32 go.
    let end = "\
S,0,42\nQ,0,,,,
X,1,156\nQ,0,10040,4,19960,6
X,1,140\nQ,0,10041,4,19959,6
X,1,50\nQ,0,10041,1,19959,4
X,1,70\nQ,0,10043,1,19957,4
Q,0,10043,1,19957,4\nV,0,0,1
";
    assert!(text.ends_with(end), "{text}");
}

#[test]
fn a_replaced_order_is_gone_and_the_new_one_is_there() {
    for home in ["its-family", "another"] {
        for (change, refused) in [
            ("a-delete", "S,9,25"),
            ("an-execute", "S,9,42"),
            ("a-replace", "S,9,42"),
        ] {
            let name = format!("{change}-of-an-order-replaced-among-three-by-one-of-{home}");
            let quote = "Q,0,10006,10,,\n";
            let lines = format!(
                "\
G,0
X,1,117\nQ,0,10000,4,20000,2
S,0,42\nQ,0,10000,4,19999,100
X,1,35\nQ,0,10000,4,19998,100
{refused}\nQ,8,,,,
S,8,25\nQ,8,,,,
S,0,20\nQ,0,,,,
S,0,39\n{quote}{quote}V,0,0,0
"
            );
            assert_eq!(probed(&name), lines, "{name}");
        }
    }
    let page = "\
100,1,09:30:00.000000125,ABC,1,4294968295,1.0000,1,B,FIRM1,0
100,2,09:30:00.000000125,ABC,2,8589935590,2.0000,2,S,FIRM1,0
100,3,09:30:00.000000125,ABC,3,12884902885,1.0000,3,B,FIRM1,0
R,9,6
R,8,7
100,9,09:30:00.000000125,ABC,6,8589935590,1.0006,10,B,FIRM1,0
E,1
Q,1.0006,10,,
";
    assert_eq!(
        printed("a-delete-of-an-order-replaced-among-three-by-one-of-its-family"),
        page
    );
}

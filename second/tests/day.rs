//! The lettered cases of document 01, "A day in symbol ABC".

use second::answer::Refusal;
use second::book::{Level, Quote};
use second::line::line;
use second::make::messages::*;
use second::program::{new_reader, painterend};
use second::reader::Reader;
use second::wire::{Market, Message};

fn answer(reader: &mut Reader, message: Message) -> Result<(), Refusal> {
    let bytes = feed(&[message]);
    let (next, done) = reader.step(&bytes, 0);
    assert_eq!(next, bytes.len());
    done.map(|applied| assert_eq!(applied, message))
}

fn bid(price: u32, size: u64) -> Result<Quote, Refusal> {
    Ok(Quote {
        bid: Some(Level { price, size }),
        ask: None,
    })
}

const NONE: Result<Quote, Refusal> = Ok(Quote {
    bid: None,
    ask: None,
});

/// Cases C to F, with the quote after each.
fn after_f() -> Reader {
    let mut reader = new_reader();
    let day = [
        (add(1, 1001, BUY, 1_234_500, 200), bid(1_234_500, 200)),
        (add(2, 1002, BUY, 1_234_500, 50), bid(1_234_500, 250)),
        (execute(3, 1001, 1_234_400, 200), bid(1_234_500, 50)),
        (
            replace(4, 1002, 1002, BUY, 1_235_000, 70),
            bid(1_235_000, 70),
        ),
    ];
    for (message, quote) in day {
        assert_eq!(answer(&mut reader, message), Ok(()));
        assert_eq!(reader.quote(ABC), quote);
    }
    reader
}

#[test]
fn a_empty_input_answers_1() {
    assert_eq!(
        Reader::new(Market::Nyse).step(&[], 0),
        (0, Err(Refusal::Cut))
    );
    assert_eq!(printed(&[]), "E,1\nQ,,,,\n");
}

#[test]
fn b_msg_size_3_answers_2() {
    let bytes = [3, 0, 100, 0];
    assert_eq!(
        Reader::new(Market::Nyse).step(&bytes, 0),
        (0, Err(Refusal::Size))
    );
    assert_eq!(printed(&bytes), "E,2\nQ,,,,\n");
}

#[test]
fn c_d_e_f_quotes() {
    after_f();
}

#[test]
fn g_h_i_j_stale_and_cleared() {
    let mut reader = after_f();
    assert_eq!(
        answer(&mut reader, delete(6, 1002)),
        Err(Refusal::Gap),
        "case G"
    );
    assert_eq!(reader.quote(ABC), Err(Refusal::Stale), "case G");
    assert_eq!(
        answer(&mut reader, delete(5, 1002)),
        Err(Refusal::Stale),
        "case H"
    );
    assert_eq!(answer(&mut reader, clear(9)), Ok(()), "case I");
    assert_eq!(reader.quote(ABC), NONE, "case I");
    let add_at = |number| add(number, 2001, BUY, 1_234_500, 10);
    assert_eq!(answer(&mut reader, add_at(8)), Err(Refusal::Low), "case J");
    assert_eq!(answer(&mut reader, add_at(9)), Ok(()), "case J");
    assert_eq!(reader.quote(ABC), bid(1_234_500, 10), "case J");
}

#[test]
fn k_execute_one_more_than_is_left_or_all() {
    let mut reader = after_f();
    assert_eq!(
        answer(&mut reader, execute(5, 1002, 1_235_000, 71)),
        Err(Refusal::Misfit)
    );
    assert_eq!(reader.quote(ABC), Err(Refusal::Stale));
    let mut reader = after_f();
    assert_eq!(answer(&mut reader, execute(5, 1002, 1_235_000, 70)), Ok(()));
    assert_eq!(reader.quote(ABC), NONE);
}

#[test]
fn l_the_marked_line() {
    let expected = b"100,57,09:30:00.000000125,ABC,3,1001,123.4500,200,B,FIRM1,0\n";
    let message = add(3, 1001, BUY, 1_234_500, 200);
    let mut out = [0xAA; 128];
    let count = line(&new_reader(), &message, 57, 34_200, &mut out);
    assert_eq!(count, Ok(expected.len()));
    assert_eq!(&out[..expected.len()], expected);
    assert!(out[expected.len()..].iter().all(|&byte| byte == 0xAA));
    let mut short = vec![0xAA; expected.len() - 1];
    let refused = line(&new_reader(), &message, 57, 34_200, &mut short);
    assert_eq!(refused, Err(Refusal::Room));
    assert!(short.iter().all(|&byte| byte == 0xAA));
}

#[test]
fn the_day_printed() {
    let day = feed(&[
        add(1, 1001, BUY, 1_234_500, 200),
        add(2, 1002, BUY, 1_234_500, 50),
        execute(3, 1001, 1_234_400, 200),
        replace(4, 1002, 1002, BUY, 1_235_000, 70),
        delete(6, 1002),
        delete(5, 1002),
        clear(9),
        add(8, 2001, BUY, 1_234_500, 10),
        add(9, 2001, BUY, 1_234_500, 10),
    ]);
    let page = "\
100,1,09:30:00.000000125,ABC,1,1001,123.4500,200,B,FIRM1,0
100,2,09:30:00.000000125,ABC,2,1002,123.4500,50,B,FIRM1,0
R,7,5
R,8,6
R,6,8
100,9,09:30:00.000000125,ABC,9,2001,123.4500,10,B,FIRM1,0
E,1
Q,123.4500,10,,
";
    assert_eq!(printed(&day), page);
}

fn printed(mut bytes: &[u8]) -> String {
    let mut page = Vec::new();
    painterend(&mut bytes, &mut page).expect("memory reads and writes");
    String::from_utf8(page).expect("a page is ASCII")
}

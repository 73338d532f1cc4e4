//! Reading what was written, and writing what was read.

use second::answer::Refusal;
use second::make::feeds::{feed, FEED_KINDS};
use second::wire::{read, write, Market};

#[test]
fn both_ways_over_all_feeds() {
    let mut seen = [0; 256];
    for (_, kind) in FEED_KINDS {
        let bytes = feed(11, kind, 1_500);
        let mut at = 0;
        loop {
            let (next, message) = read(Market::Nyse, &bytes, at);
            if next == at {
                break;
            }
            if let Ok(message) = message {
                let mut out = [0xAA; 80];
                let count =
                    write(Market::Nyse, &message, &mut out).expect("80 bytes are room for each");
                assert_eq!(read(Market::Nyse, &out, 0), (count, Ok(message)));
                assert!(out[count..].iter().all(|&byte| byte == 0xAA));
                let written = bytes[at..next].iter().zip(&out);
                let differing = written.filter(|(was, is)| was != is && **is != 0).count();
                assert_eq!(differing, 0, "only a reserved byte may differ");
                seen[usize::from(message.kind())] += 1;
                let mut short = vec![0xAA; count - 1];
                assert_eq!(
                    write(Market::Nyse, &message, &mut short),
                    Err(Refusal::Room)
                );
                assert!(short.iter().all(|&byte| byte == 0xAA));
            }
            at = next;
        }
    }
    for kind in [
        100, 101, 102, 103, 104, 105, 110, 111, 112, 113, 114, 32, 34,
    ] {
        assert!(seen[kind] > 0, "no message of type {kind}");
    }
}

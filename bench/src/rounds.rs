//! The runs: every reader in turn over the same bytes in memory, round after round. Only the run is
//! timed; making the state before it and asking the questions after it are not.

use std::time::{Duration, Instant};

use bench::feed::REGISTERED;
use painterend::Ended;

use crate::readers::{Reader, READERS};

/// What a duration was over some rounds.
#[derive(Clone, Copy)]
pub struct Times {
    pub best: Duration,
    pub median: Duration,
}

impl Times {
    /// Of an even number of rounds, the median is the upper one of the two in the middle.
    pub fn of(mut rounds: Vec<Duration>) -> Times {
        rounds.sort();
        Times {
            best: rounds[0],
            median: rounds[rounds.len() / 2],
        }
    }
}

/// The times of each of the `READERS`, or what one of them says otherwise than the first.
pub fn time(feed: &[u8], rounds: usize) -> Result<Vec<Times>, String> {
    let mut times = READERS.map(|_| Vec::new());
    for _ in 0..rounds {
        let mut answers = Vec::new();
        for (reader, times) in READERS.iter().zip(&mut times) {
            let mut state = (reader.new)();
            let start = Instant::now();
            let ended = state.run(feed);
            times.push(start.elapsed());
            answers.push(said(ended, &*state));
        }
        compare(&answers)?;
    }
    Ok(times.into_iter().map(Times::of).collect())
}

/// Where the run ended, the eight quotes and the eight volumes, each as a line.
pub fn said(ended: Ended, state: &dyn Reader) -> Vec<String> {
    let mut lines = vec![format!("{ended:?}")];
    for index in REGISTERED {
        lines.push(format!("symbol {index}: {:?}", state.quote(index)));
        lines.push(format!("symbol {index}: {:?}", state.volume(index)));
    }
    lines
}

fn compare(answers: &[Vec<String>]) -> Result<(), String> {
    for (reader, own) in READERS.iter().zip(answers) {
        let different = answers[0].iter().zip(own).find(|(first, own)| first != own);
        if let Some((first, own)) = different {
            let (title, first_title) = (reader.title, READERS[0].title);
            return Err(format!("{title} says {own}, {first_title} says {first}"));
        }
    }
    Ok(())
}

#[cfg(test)]
mod tests {
    use super::{compare, Times};
    use std::time::Duration;

    #[test]
    fn the_median_is_in_the_middle() {
        let rounds = [5, 1, 9, 3, 4].map(Duration::from_secs);
        let times = Times::of(rounds.to_vec());
        assert_eq!(times.best.as_secs(), 1);
        assert_eq!(times.median.as_secs(), 4);
    }

    #[test]
    fn a_difference_is_named() {
        let mut answers = vec![vec!["an end".to_string(), "a quote".to_string()]; 4];
        assert_eq!(compare(&answers), Ok(()));
        answers[3][1] = "no quote".to_string();
        let error = "Painterend says no quote, HashMap says a quote";
        assert_eq!(compare(&answers), Err(error.to_string()));
    }
}

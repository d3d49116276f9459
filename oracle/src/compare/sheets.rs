//! How long whole sheets take, some works beside one another in the same process.

use super::{median, thread_seconds};

/// Seconds of one round of one work.
const ROUND: f64 = 0.01;

/// Seconds of processor time that one turn of each work takes: the medians of some rounds, in each of which all works have their turns.
pub fn beside(works: &mut [&mut dyn FnMut()], rounds: usize) -> Vec<f64> {
    let turns: Vec<usize> = works.iter_mut().map(|work| turns(*work)).collect();
    let mut taken = vec![Vec::new(); works.len()];
    for _ in 0..rounds {
        for (i, work) in works.iter_mut().enumerate() {
            taken[i].push(seconds(*work, turns[i]));
        }
    }
    taken.into_iter().map(median).collect()
}

/// How many turns fill a round.
fn turns(work: &mut dyn FnMut()) -> usize {
    let mut turns = 1;
    loop {
        let all = seconds(work, turns) * turns as f64;
        if all > ROUND / 8.0 {
            return (turns as f64 * ROUND / all).ceil() as usize;
        }
        turns *= 4;
    }
}

fn seconds(work: &mut dyn FnMut(), turns: usize) -> f64 {
    let begin = thread_seconds();
    for _ in 0..turns {
        work();
    }
    (thread_seconds() - begin) / turns as f64
}

#[cfg(test)]
mod test {
    use std::hint::black_box;

    use super::beside;

    #[test]
    fn test_more_work_takes_longer() {
        let work = |n: u64| move || {
            black_box((0..n).fold(0, |a, b| black_box(a ^ b)));
        };
        let times = beside(&mut [&mut work(1_000), &mut work(20_000)], 3);
        assert!(times[0] > 0.0 && times[1] > 3.0 * times[0], "{times:?}");
    }
}

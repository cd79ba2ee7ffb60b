//! Who meets whom in a random list.

use crate::images::Random;

/// Each way puts other pressure on the labels.
#[derive(Clone, Copy)]
pub enum Way {
    Any,
    Ring,
    Hub,
    Halves,
    Again,
}

pub const WAYS: [Way; 5] = [Way::Any, Way::Ring, Way::Hub, Way::Halves, Way::Again];

pub fn next_pair(random: &mut Random, n: usize, way: Way, last: (usize, usize)) -> (usize, usize) {
    let any = random.stall(n);
    let (a, b) = match way {
        Way::Ring => (any, any % n + 1),
        Way::Hub => (1, random.other_stall(n, 1)),
        Way::Again if random.percent(60) => last,
        Way::Halves if random.percent(95) => {
            let same_half = |&b: &usize| b != any && (b > n / 2) == (any > n / 2);
            let half: Vec<usize> = (1..=n).filter(same_half).collect();
            (any, if half.is_empty() { any % n + 1 } else { random.pick(&half) })
        }
        _ => (any, random.other_stall(n, any)),
    };
    if random.percent(50) {
        (a, b)
    } else {
        (b, a)
    }
}

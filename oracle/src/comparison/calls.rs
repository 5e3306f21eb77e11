//! Calls that know no station, such as those on frames and on captures: made by the oracle and by another's, many at a time,
//! and what they left held to each other.

use crate::coverage::Points;

/// What a call left: what it returned, the two numbers that it was lent (0 where it has none), and the buffer.
#[derive(Debug, Clone, PartialEq, Eq)]
pub struct Made {
    pub returned: u64,
    pub lent: [u64; 2],
    pub buffer: Vec<u8>,
}

impl Made {
    /// Of a call that is lent no numbers.
    pub fn of(returned: u64, buffer: Vec<u8>) -> Made {
        Made { returned, lent: [0; 2], buffer }
    }
}

/// The same; `None` if the call did not come back or changed something else.
pub type Left = Option<Made>;

/// Another's calls, many at a time, in their order.
pub type Calls<'a, T> = &'a dyn Fn(&[T]) -> Vec<Left>;

/// A call with all that it is given.
pub trait Try: Clone {
    /// What the lines of a report begin with.
    const NAME: &'static str;

    /// What the oracle leaves.
    fn by_oracle(&self) -> Made;

    /// The call in words, and what it left in words.
    fn in_words(&self) -> String;
    fn left_in_words(&self, made: &Made) -> String;

    /// Smaller calls of the same kind, those to be tried first in front.
    fn smaller(&self) -> Box<dyn Iterator<Item = Self> + '_>;

    /// The call as a program is asked for it, and back.
    fn asked(&self) -> Asked<'_>;
    fn of_asked(asked: Asked) -> Self;

    /// How many bytes it is given.
    fn size(&self) -> usize {
        let asked = self.asked();
        asked.lent.len() + asked.buffer.len()
    }
}

/// A call as a program is asked for it: which one, a number, the bytes that are lent to be read, and the buffer.
#[derive(Debug, Clone, Copy)]
pub struct Asked<'a> {
    pub which: u8,
    pub word: u32,
    pub lent: &'a [u8],
    pub buffer: &'a [u8],
}

/// What has been met, by name.
pub trait Meets<T>: Default {
    /// Takes note of a call and of what the oracle left.
    fn see(&mut self, one: &T, made: &Made);

    /// All points by name, and how often each was met.
    fn points(&self) -> Points;
}

/// Parts of what is tried, with their names.
pub type Parts<T> = Vec<(&'static str, Box<dyn Iterator<Item = T>>)>;

/// So many calls, and so many bytes and one call more, are given at a time.
const BATCH: usize = 8192;
const BATCH_BYTES: usize = 1 << 22;

/// At most this many points that were never reached are named.
const NAMED: usize = 20;

/// What the oracle leaves.
pub fn oracle<T: Try>(tries: &[T]) -> Vec<Left> {
    tries.iter().map(|one| Some(one.by_oracle())).collect()
}

fn differs<T: Try>(calls: Calls<T>, one: &T) -> bool {
    let alone = std::slice::from_ref(one);
    calls(alone) != oracle(alone)
}

/// A smallest call that still shows the difference.
pub fn shortened<T: Try>(calls: Calls<T>, one: &T) -> T {
    let mut one = one.clone();
    loop {
        let smaller = one.smaller().find(|smaller| differs(calls, smaller));
        match smaller {
            Some(smaller) => one = smaller,
            None => return one,
        }
    }
}

fn described<T: Try>(calls: Calls<T>, one: &T) -> String {
    let alone = std::slice::from_ref(one);
    let words = |left: &Left| match left {
        Some(made) => one.left_in_words(made),
        None => "did not come back, or changed what is not the call's".to_string(),
    };
    let (expected, got) = (words(&oracle(alone)[0]), words(&calls(alone)[0]));
    format!("  {}\n    the oracle:  {}\n    the other:   {}\n", one.in_words(), expected, got)
}

/// The next calls that are given together.
fn batch<T: Try>(tries: &mut dyn Iterator<Item = T>) -> Vec<T> {
    let (mut batch, mut bytes) = (Vec::new(), 0);
    while batch.len() < BATCH && bytes < BATCH_BYTES {
        match tries.next() {
            Some(one) => {
                bytes += one.size();
                batch.push(one);
            }
            None => break,
        }
    }
    batch
}

/// Makes these calls; gives how many there were, or the first that differs. Each that does not is shown, with what the
/// oracle left.
pub fn first_difference<T: Try>(
    calls: Calls<T>,
    mut tries: impl Iterator<Item = T>,
    see: &mut dyn FnMut(&T, &Made),
) -> Result<u64, Box<T>> {
    let mut count = 0;
    loop {
        let batch = batch(&mut tries);
        if batch.is_empty() {
            return Ok(count);
        }
        let expected = oracle(&batch);
        let got = calls(&batch);
        if expected != got {
            let place = (0..batch.len()).find(|i| expected.get(*i) != got.get(*i)).unwrap_or(0);
            return Err(Box::new(batch[place].clone()));
        }
        for (one, left) in batch.iter().zip(expected.iter().flatten()) {
            see(one, left);
        }
        count += batch.len() as u64;
    }
}

/// Compares all these calls; gives the text to print and whether all of it held, which a point that was not reached does
/// not.
pub fn compare<T: Try, M: Meets<T>>(calls: Calls<T>, parts: Parts<T>, seed: u64) -> (String, bool) {
    let mut met = M::default();
    let mut counts = Vec::new();
    for (name, tries) in parts {
        match first_difference(calls, tries, &mut |one, made| met.see(one, made)) {
            Ok(count) => counts.push(format!("{} {}", count, name)),
            Err(one) => {
                let said = [described(calls, &*one), described(calls, &shortened(calls, &one))].concat();
                return (format!("{}: seed {}, {}: the calls differ\n{}", T::NAME, seed, name, said), false);
            }
        }
    }
    let points = met.points();
    let missed = points.missed();
    let mut said = format!("{}: what was tried reached:\n{}", T::NAME, points.report());
    let mut say = |line: String| said.push_str(&format!("{}: {}\n", T::NAME, line));
    missed.iter().take(NAMED).for_each(|point| say(format!("never reached: {}", point)));
    points.unnamed().iter().take(NAMED).for_each(|point| say(format!("not as said: {}", point)));
    if missed.is_empty() {
        say(format!("all {} coverage points reached", points.size()));
    }
    say(format!("seed {}, {}, 0 differ", seed, counts.join(", ")));
    (said, missed.is_empty() && points.unnamed().is_empty())
}

/// The whole of a program whose arguments are `SEED COUNT` and whose comparison this is. Gives its exit status.
pub fn main(usage: &str, comparison: impl Fn(u64, u64) -> (String, bool), words: &[String]) -> i32 {
    let numbers: Vec<Option<u64>> = words.iter().map(|word| word.parse().ok()).collect();
    match numbers.as_slice() {
        [Some(seed), Some(count)] if *count > 0 => {
            let (said, held) = comparison(*seed, *count);
            print!("{}", said);
            i32::from(!held)
        }
        _ => {
            eprintln!("{}", usage);
            2
        }
    }
}

//! The wards that are measured, all of edition one. The random ones were drawn once by the
//! comparison's generator and are stored, so that they stay the same where it changes.

use crate::baseline::{self, Baseline, End, NUMBERS};

/// Places of the buffer.
pub const PLACES: usize = 1 << 16;
/// The random wards keep their search busy for so many steps.
const STEPS: u32 = 200;

pub struct Subject {
    pub name: String,
    pub file: &'static [u8],
    /// most steps by night, where they are measured
    pub night: Option<u32>,
    /// nights at zero and most steps by day, where they are measured
    pub day: Option<(Vec<u32>, u32)>,
}

impl Subject {
    fn new(name: &str, file: &'static [u8]) -> Subject {
        let mut numbers = Box::new([0; NUMBERS]);
        baseline::read(file, &mut numbers).expect("a ward of edition one");
        let [m, n, r] = [numbers[0], numbers[1], numbers[2]];
        let name = format!("{name}: {m} nurses, {n} days, {r} groups");
        Subject { name, file, night: None, day: None }
    }
}

/// A random ward of a size with its search by night, and another with its search by day.
macro_rules! random {
    ($size:literal) => {{
        let name = concat!("random ", $size);
        let night = include_bytes!(concat!("../wards/", $size, "-night.ward"));
        let day = include_bytes!(concat!("../wards/", $size, "-day.ward"));
        let nights = include_str!(concat!("../wards/", $size, "-day.nights"));
        let nights = nights.lines().map(|pattern| pattern.parse().expect("a number")).collect();
        [
            Subject { night: Some(STEPS), ..Subject::new(name, night) },
            Subject { day: Some((nights, STEPS)), ..Subject::new(name, day) },
        ]
    }};
}

pub fn all() -> Vec<Subject> {
    let mut all = [random!("small"), random!("middle"), random!("month"), random!("full")]
        .into_iter()
        .flatten()
        .collect::<Vec<_>>();
    all.push(redated());
    let large = include_bytes!("../../reference/wards/large.ward");
    all.push(Subject { night: Some(30), ..Subject::new("large", large) });
    all
}

/// Both of its searches end at zero.
fn redated() -> Subject {
    let file = include_bytes!("../../reference/wards/redated.ward");
    let (done, _) = Baseline::ListsKept.by_night(file, 1_000, PLACES).expect("no refusal");
    assert_eq!(done.end, End::Zero);
    let nights = done.in_use.into_iter().flatten().collect();
    Subject {
        night: Some(1_000),
        day: Some((nights, 1_000)),
        ..Subject::new("re-dated surgical", file)
    }
}

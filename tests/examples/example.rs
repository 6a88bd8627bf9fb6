//! Plans a ward of two nurses and three days, first the nights, then the days, and checks the roster. Then it keeps the nights, looks for
//! another roster past zero, and returns to the nights that it kept.
//!
//!   (cd crates/pantheryl && rt lib)
//!   rustc -O -L crates/pantheryl/out -l static=pantheryl -o target/example_rs tests/examples/example.rs && target/example_rs

// The declarations of include/pantheryl.h; every call takes any content, so these wrappers have nothing to ask.
mod pantheryl {
    mod c {
        extern "C" {
            pub fn pantheryl_advance_nights(
                file: *const u8, file_len: usize, record: *mut u32, k: u32, past_zero: u32, buffer: *mut u32, buffer_len: usize, answer: *mut u64,
            );
            pub fn pantheryl_advance_days(
                file: *const u8, file_len: usize, nights: *const u32, record: *mut u32, k: u32, past_zero: u32, buffer: *mut u32, buffer_len: usize,
                roster: *mut u8, answer: *mut u64,
            );
            pub fn pantheryl_check(file: *const u8, file_len: usize, roster: *const u8, roster_len: usize, answer: *mut u64);
            pub fn pantheryl_keep(record: *const u32, number: u32, storage: *mut u32, storage_len: usize, answer: *mut u64);
            pub fn pantheryl_return(record: *mut u32, number: u32, storage: *const u32, storage_len: usize, answer: *mut u64);
        }
    }

    pub const NIGHTS: usize = 96;
    pub const RECORD: usize = 401;
    pub const ROSTER: usize = 1488;
    pub const STORAGE: usize = 3216;

    pub type Nights = [u32; NIGHTS];
    pub type Record = [u32; RECORD];
    pub type Answer = [u64; 6];

    pub fn advance_nights(file: &[u8], record: &mut Record, k: u32, past_zero: bool, buffer: &mut [u32]) -> Answer {
        let (mut answer, past_zero) = ([0; 6], past_zero.into());
        unsafe {
            c::pantheryl_advance_nights(
                file.as_ptr(), file.len(), record.as_mut_ptr(), k, past_zero, buffer.as_mut_ptr(), buffer.len(), answer.as_mut_ptr(),
            )
        };
        answer
    }

    pub fn advance_days(
        file: &[u8], nights: &Nights, record: &mut Record, k: u32, past_zero: bool, buffer: &mut [u32], roster: &mut [u8; ROSTER],
    ) -> Answer {
        let (mut answer, past_zero) = ([0; 6], past_zero.into());
        unsafe {
            c::pantheryl_advance_days(
                file.as_ptr(), file.len(), nights.as_ptr(), record.as_mut_ptr(), k, past_zero, buffer.as_mut_ptr(), buffer.len(),
                roster.as_mut_ptr(), answer.as_mut_ptr(),
            )
        };
        answer
    }

    pub fn check(file: &[u8], roster: &[u8]) -> Answer {
        let mut answer = [0; 6];
        unsafe { c::pantheryl_check(file.as_ptr(), file.len(), roster.as_ptr(), roster.len(), answer.as_mut_ptr()) };
        answer
    }

    pub fn keep(record: &Record, number: u32, storage: &mut [u32]) -> Answer {
        let mut answer = [0; 6];
        unsafe { c::pantheryl_keep(record.as_ptr(), number, storage.as_mut_ptr(), storage.len(), answer.as_mut_ptr()) };
        answer
    }

    // "return" is a word of the language.
    pub fn bring_back(record: &mut Record, number: u32, storage: &[u32]) -> Answer {
        let mut answer = [0; 6];
        unsafe { c::pantheryl_return(record.as_mut_ptr(), number, storage.as_ptr(), storage.len(), answer.as_mut_ptr()) };
        answer
    }
}

fn print(call: &str, answer: pantheryl::Answer) {
    println!("{call}: {}", answer.map(|word| word.to_string()).join(" "));
}

// Plans the days over a night record that is at zero: a search of its own, from fresh. Prints the roster and gives its letters.
fn plan_days(ward: &[u8], night_record: &pantheryl::Record, buffer: &mut [u32]) -> Vec<u8> {
    let mut day_record = [0; pantheryl::RECORD];
    let mut roster = [0; pantheryl::ROSTER];
    // The choice of nights is the first words of the night record: patterns and, in a ward that has them, pairs.
    let nights = std::array::from_fn(|i| night_record[i]);
    let answer = pantheryl::advance_days(ward, &nights, &mut day_record, 1000, false, buffer, &mut roster);
    print("days", answer);
    let letters = &roster[..answer[5] as usize];
    for row in letters.chunks(3) {
        println!("{}", String::from_utf8_lossy(row));
    }
    letters.to_vec()
}

fn main() {
    // Every number is below 128, so each is one byte: the head, the two nurses, the needs of each day.
    let ward: Vec<u8> = [
        &[2, 3, 0, 1, 1, 1, 1, 1, 2, 3, 1, 1, 1, 1, 1, 1][..],
        &[0, 0, 0, 0, 0, 0, 0, 0, 1, 0, 3, 0, 0, 0],
        &[0, 0, 0, 0, 0, 0, 0, 0, 1, 0, 3, 0, 0, 1],
        &[1, 1, 0, 1, 0, 0],
    ]
    .concat();
    let mut buffer = vec![0; 16_384];
    // Zeros: nothing is kept.
    let mut storage = vec![0; pantheryl::STORAGE];
    let mut nights = [0; pantheryl::RECORD];

    print("nights", pantheryl::advance_nights(&ward, &mut nights, 1000, false, &mut buffer));
    let letters = plan_days(&ward, &nights, &mut buffer);
    print("check", pantheryl::check(&ward, &letters));

    // Keep these nights under number 1, and go on past zero: two steps later there are others.
    print("keep", pantheryl::keep(&nights, 1, &mut storage));
    print("past zero", pantheryl::advance_nights(&ward, &mut nights, 2, true, &mut buffer));
    plan_days(&ward, &nights, &mut buffer);

    // The first ones again.
    print("return", pantheryl::bring_back(&mut nights, 1, &storage));
    plan_days(&ward, &nights, &mut buffer);
}

//! Pictures: that of a state into a buffer as long as it, into one a byte shorter, which is refused, and the two tests of that state alone. A line
//! has the picture's bytes where others have what is held.
use crate::files::{sum, CALLS};
use crate::harness::{Bench, Case, Sides};
use crate::Port;
use treadwharf::PICTURE_MOST;

pub fn measure(bench: &mut Bench, name: &str, atlas: &Port) {
    let mut room = vec![0; PICTURE_MOST];
    let length = atlas.picture(&mut room).expect("an atlas").len();
    let (blank, short) = (vec![0; length], vec![0; length - 1]);
    let mut text = blank.clone();
    assert!(atlas.picture(&mut text).map(str::len) == Ok(length) && text == room[..length], "{name}: not what the longer buffer got");
    let told = |passed: bool| if passed { Ok(length) } else { Ok(0) };
    let sides = Sides {
        states: (&blank, &short),
        first: &|text: &mut Vec<u8>| sum(|| atlas.picture(text).map(str::len)),
        others: [
            &|text: &mut Vec<u8>| sum(|| told(atlas.picture(text).is_err())),
            &|_: &mut Vec<u8>| sum(|| told(atlas.is_sound())),
            &|_: &mut Vec<u8>| sum(|| told(atlas.fits())),
        ],
    };
    bench.case(Case { held: length, ..Case::of(name, CALLS, atlas) }, sides);
}

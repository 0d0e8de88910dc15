//! A linear list is not bounded, and neither are the argument values that an Invoke shows.

use generators::linear::{LONGEST, long};
use generators::{build, stores};
use reference::machines::Given;
use stepper::{Machine, Stepper, store};

#[test]
fn a_list_beyond_every_count() {
    let stepper = Stepper::new(Machine::Linear, &build::image(&long(LONGEST)));
    let mut given: Vec<Given> = (1..LONGEST).map(|id| Given::Int(id.into())).collect();
    given.push(Given::Outside(200));
    let mut store = vec![0; 1 << 15];
    assert_eq!(stepper.start(0, &stores::values(&given), &mut store), 0);
    let mut events = vec![0; 1 << 14];
    let answer = stepper.step(1_000, &mut store, &mut events);
    let state = store::state(stepper.program().unwrap(), &store).unwrap();
    assert_eq!(state.entries.len(), 3 * LONGEST as usize);
    assert!(state.ended && !state.stopped);
    // six events, and one that shows all but the last
    let shown = 3 * LONGEST as usize - 1;
    assert_eq!((answer.number, answer.length), (0, 16 * (6 + 1 + shown)));
    let last = &events[16 * 6..];
    assert_eq!(last[..9], [7, 2, 1, 0, 0x79, 0x01, 0, 0, 200]);
    let slot = |place: usize| &last[16 * (1 + place)..16 * (2 + place)];
    for place in 0..shown {
        let value = (place % LONGEST as usize) as u8 + 1;
        let expected = match value {
            126 => [2, 200],
            _ => [0, value],
        };
        assert_eq!([slot(place)[0], slot(place)[8]], expected);
    }
    // a byte less is too little
    assert_eq!(stepper.start(0, &stores::values(&given), &mut store), 0);
    let short = stepper.step(1_000, &mut store, &mut events[..answer.length - 1]);
    assert_eq!((short.number, short.made), (15, answer.made - 1));
}

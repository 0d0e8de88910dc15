//! What the sessions come by: each machine makes a step at every kind of statement, has no next step at
//! every kind that can be so, and finds too little room for every kind.

use stepper::{Machine, Stepper};
use vectors::{Session, What};

/// By machine and kind of the statement at hand.
#[derive(Debug, Default)]
struct Seen {
    /// Steps that are made.
    made: [[usize; 14]; 2],
    /// Calls that end there, since the run is stuck or has stopped.
    stuck: [[usize; 14]; 2],
    stopped: [[usize; 14]; 2],
    /// Calls whose next step has too little store, or too few event bytes.
    no_store: [[usize; 14]; 2],
    no_events: [[usize; 14]; 2],
    /// Calls that are made once the run has ended.
    after_the_end: [usize; 2],
}

fn kind(image: &[u8], store: &[u8]) -> usize {
    let pair = 8 + 4 * usize::from(u16::from_le_bytes([store[0], store[1]]));
    let offset = u16::from_le_bytes([image[pair], image[pair + 1]]);
    image[usize::from(offset)].into()
}

impl Seen {
    fn session(&mut self, session: &Session) {
        let stepper = Stepper::new(session.machine, &session.image);
        for call in &session.calls {
            if let (What::Step { steps, .. }, 0 | 15) = (&call.what, call.answer.number) {
                self.call(session, &stepper, &call.before, *steps, call.answer);
            }
        }
    }

    /// The steps of the call one by one.
    fn call(
        &mut self,
        session: &Session,
        stepper: &Stepper,
        before: &[u8],
        steps: u64,
        answer: stepper::Answer,
    ) {
        let machine = usize::from(session.machine == Machine::Linear);
        let (mut store, mut events) = (before.to_vec(), vec![0; 1 << 14]);
        self.after_the_end[machine] += usize::from(store[4] == 1 && steps > 0);
        for _ in 0..answer.made {
            self.made[machine][kind(&session.image, &store)] += 1;
            let made = stepper.step(1, &mut store, &mut events);
            assert_eq!((made.number, made.made), (0, 1));
        }
        let here = kind(&session.image, &store);
        if answer.number == 15 {
            store.resize(store.len() + 4_096, 0);
            let in_store = stepper.step(1, &mut store, &mut vec![0; 1 << 14]);
            assert_eq!(in_store.made, 1);
            let fits = generators::stores::size(&store) <= before.len();
            let which = if fits {
                &mut self.no_events
            } else {
                &mut self.no_store
            };
            which[machine][here] += 1;
        } else if answer.made < steps {
            self.stuck[machine][here] += usize::from(store[4..6] == [0, 0]);
            self.stopped[machine][here] += usize::from(store[4..6] == [0, 1]);
        }
    }
}

/// The kinds of statements.
const KINDS: [usize; 11] = [2, 3, 4, 5, 6, 7, 8, 9, 10, 12, 13];

/// Just these kinds are there, each so many times and more.
fn are(counts: [usize; 14], kinds: &[usize], least: usize) {
    for (kind, &count) in counts.iter().enumerate() {
        assert_eq!(kinds.contains(&kind), count > 0, "kind {kind}: {counts:?}");
        assert!(count == 0 || count >= least, "kind {kind}: {counts:?}");
    }
}

/// A source has no Substitute, a Literal is never stuck, and so on.
#[test]
fn every_kind_of_statement_is_come_by() {
    let mut seen = Seen::default();
    for session in vectors::sessions() {
        seen.session(&session);
    }
    println!("{seen:#?}");
    are(seen.made[0], &KINDS[1..], 30);
    are(seen.made[1], &KINDS, 30);
    are(seen.stopped[0], &[], 0);
    are(seen.stopped[1], &KINDS, 3);
    are(seen.no_store[0], &[3, 4, 5, 6, 7, 8, 9], 4);
    are(seen.no_store[1], &[2, 4, 5, 6, 7, 8, 9], 4);
    are(seen.no_events[0], &KINDS[1..], 2);
    are(seen.no_events[1], &KINDS[1..], 2);
    // an absent variable, which is an ID to the linear machine, is in forged stores of the source machine
    are(seen.stuck[0], &[3, 4, 5, 7, 9, 10, 12, 13], 2);
    // forged stores have the stopped flag clear where the machine stops
    are(seen.stuck[1], &KINDS, 1);
    assert!(seen.after_the_end.iter().all(|&calls| calls >= 20));
}

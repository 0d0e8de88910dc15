//! Each step of a stepper against the machine's: the same events, the same states, and the same end:
//! ended, stuck or stopped.

use crate::machines::{Places, bytes};
use crate::{PLENTY, filled};
use generators::{Rng, build, linear, small, starts, stores, typed, wild};
use reference::machines::{Given, Linear, Outcome, Source, Start, State};
use reference::oracle::Oracle;
use reference::syntax::Prog;
use stepper::{Machine, Stepper, store};

const STEPS: usize = 150;

/// A machine of `reference`.
enum Model<'a> {
    Source(Source<'a>),
    Linear(Linear<'a>),
}

impl<'a> Model<'a> {
    fn start(machine: Machine, prog: &'a Prog, place: usize, given: &[Given]) -> Start<Model<'a>> {
        match machine {
            Machine::Source => begun(Source::start(prog, place, given), Model::Source),
            Machine::Linear => begun(Linear::start(prog, place, given), Model::Linear),
        }
    }

    fn step(&mut self) -> Outcome {
        match self {
            Model::Source(source) => source.step(),
            Model::Linear(linear) => linear.step(),
        }
    }

    fn state(&mut self) -> &mut State<'a> {
        match self {
            Model::Source(source) => &mut source.state,
            Model::Linear(linear) => &mut linear.state,
        }
    }
}

fn begun<A, B>(start: Start<A>, of: impl FnOnce(A) -> B) -> Start<B> {
    match start {
        Start::Begun(machine) => Start::Begun(of(machine)),
        Start::NotBegun => Start::NotBegun,
        Start::Stopped => Start::Stopped,
    }
}

#[derive(Debug, Default)]
struct Totals {
    runs: usize,
    steps: usize,
    silent: usize,
    events: usize,
    not_begun: usize,
    ended: usize,
    stuck: usize,
    stopped: usize,
    stopped_at_the_start: usize,
    still_running: usize,
}

/// The image's program with that machine from some starts, in a store of that length.
fn compare(rng: &mut Rng, machine: Machine, image: &[u8], room: usize, totals: &mut Totals) {
    let oracle = Oracle::new(image);
    let prog = oracle.program().expect("an image");
    let stepper = Stepper::new(machine, image);
    assert!(stepper.program().is_ok());
    let places = Places::of(prog);
    for _ in 0..2 {
        let (place, given) = starts::start(rng, prog);
        let run = Run {
            machine,
            stepper: &stepper,
            places: &places,
            room,
        };
        run.compare(rng, prog, place, &given, totals);
    }
}

struct Run<'a> {
    machine: Machine,
    stepper: &'a Stepper,
    places: &'a Places<'a>,
    room: usize,
}

impl Run<'_> {
    fn compare(
        &self,
        rng: &mut Rng,
        prog: &Prog,
        place: usize,
        given: &[Given],
        totals: &mut Totals,
    ) {
        totals.runs += 1;
        let mut store = filled(rng, self.room);
        let before = store.clone();
        let number = self
            .stepper
            .start(place, &stores::values(given), &mut store);
        let mut model = match Model::start(self.machine, prog, place, given) {
            Start::Begun(model) => model,
            Start::NotBegun => {
                assert_eq!(number, 14);
                assert!(store == before);
                totals.not_begun += 1;
                return;
            }
            Start::Stopped => {
                assert_eq!(number, 0);
                assert!(self.state(&store).stopped);
                self.stays(&mut store);
                totals.stopped_at_the_start += 1;
                return;
            }
        };
        assert_eq!(number, 0);
        let mut whole = store.clone();
        let (made, shown) = self.steps(&mut model, &mut store, totals);
        // the same in one call
        let mut events = filled(rng, shown.len());
        let answer = self.stepper.step(STEPS as u64, &mut whole, &mut events);
        assert_eq!((answer.number, answer.made), (0, made));
        assert!(events == shown && whole == store);
    }

    /// The steps one by one: how many, and their events.
    fn steps(&self, model: &mut Model, store: &mut [u8], totals: &mut Totals) -> (u64, Vec<u8>) {
        let mut shown = Vec::new();
        for made in 0..STEPS as u64 {
            let state = self.state(store);
            assert!(
                self.places
                    .same(&state, model.state(), self.machine == Machine::Linear)
            );
            let outcome = model.step();
            assert_eq!(state.stopped, outcome == Outcome::Stops);
            let expected = match &outcome {
                Outcome::Shows(event) => bytes(event),
                Outcome::Silent => Vec::new(),
                Outcome::Halts | Outcome::Stops => {
                    self.stays(store);
                    match outcome {
                        Outcome::Stops => totals.stopped += 1,
                        _ if state.ended => totals.ended += 1,
                        _ => totals.stuck += 1,
                    }
                    return (made, shown);
                }
            };
            totals.steps += 1;
            totals.silent += usize::from(expected.is_empty());
            totals.events += usize::from(!expected.is_empty());
            let mut events = vec![0xA5; expected.len() + 16];
            let answer = self.stepper.step(1, store, &mut events);
            assert_eq!(
                (answer.number, answer.made, answer.length),
                (0, 1, expected.len())
            );
            assert_eq!(events[..expected.len()], expected);
            assert_eq!(events[expected.len()..], [0xA5; 16]);
            shown.extend(expected);
        }
        totals.still_running += 1;
        (STEPS as u64, shown)
    }

    fn state(&self, store: &[u8]) -> stepper::State {
        store::state(self.stepper.program().unwrap(), store).expect("a state")
    }

    /// There is no step more, and nothing changes.
    fn stays(&self, store: &mut [u8]) {
        let before = store.to_vec();
        let answer = self.stepper.step(u64::MAX, store, &mut []);
        assert_eq!((answer.number, answer.made, answer.length), (0, 0, 0));
        assert!(before == *store);
    }
}

fn totals(count: u64, seed: u64, machine: Machine, of: impl Fn(&mut Rng) -> Vec<u8>) -> Totals {
    let mut totals = Totals::default();
    for index in 0..count {
        let mut rng = Rng::of_case(seed, index);
        let image = of(&mut rng);
        compare(&mut rng, machine, &image, PLENTY, &mut totals);
    }
    println!("{totals:?}");
    totals
}

#[test]
fn the_source_machine_on_typed_programs() {
    let totals = totals(1_000, 21, Machine::Source, |rng| {
        build::image(&typed::program(rng))
    });
    assert!(totals.ended > 100 && totals.stuck > 100 && totals.not_begun > 100);
    assert!(totals.still_running > 50 && totals.steps > 30_000);
    assert_eq!((totals.silent, totals.stopped), (0, 0));
}

#[test]
fn the_source_machine_on_wild_programs() {
    let totals = totals(1_000, 22, Machine::Source, |rng| {
        build::image(&wild::program(rng))
    });
    assert!(totals.stuck > 500 && totals.steps > 3_000);
}

#[test]
fn the_linear_machine_on_what_the_pass_gives() {
    let totals = totals(1_000, 23, Machine::Linear, |rng| {
        build::image(&linear::linearized(typed::program(rng)))
    });
    assert!(totals.ended > 100 && totals.stuck > 100 && totals.silent > 5_000);
    assert!(totals.still_running > 50 && totals.events > 20_000);
    assert_eq!((totals.stopped, totals.stopped_at_the_start), (0, 0));
}

#[test]
fn the_linear_machine_on_images_from_elsewhere() {
    let totals = totals(2_000, 24, Machine::Linear, linear::image);
    assert!(totals.stopped > 300 && totals.stuck > 300 && totals.ended > 100);
    assert!(totals.stopped_at_the_start > 5 && totals.steps > 20_000);
}

/// Room for every state of the smallest programs.
const LITTLE: usize = 1 << 15;

#[test]
fn the_linear_machine_on_tiny_programs() {
    let mut totals = Totals::default();
    for index in 0..15_000 {
        let mut rng = Rng::of_case(25, index);
        let image = build::image(&linear::tiny(&mut rng));
        compare(&mut rng, Machine::Linear, &image, LITTLE, &mut totals);
    }
    println!("{totals:?}");
    assert!(totals.stopped > 3_000 && totals.stuck > 3_000 && totals.ended > 1_000);
}

/// Sources that the linear machine is given as they are stop at a Create, and where values are used
/// twice.
#[test]
fn the_linear_machine_on_sources() {
    let totals = totals(1_000, 26, Machine::Linear, |rng| {
        build::image(&typed::program(rng))
    });
    assert!(totals.stopped > 500);
}

#[test]
fn both_machines_on_small_programs() {
    let mut totals = [Totals::default(), Totals::default()];
    for (index, prog) in small::programs().iter().enumerate().step_by(11) {
        let image = build::image(prog);
        let mut rng = Rng::of_case(27, index as u64);
        compare(&mut rng, Machine::Linear, &image, LITTLE, &mut totals[1]);
        if Oracle::new(&image).check().number == 0 {
            compare(&mut rng, Machine::Source, &image, LITTLE, &mut totals[0]);
        }
    }
    println!("{totals:?}");
    assert!(totals[0].steps > 1_000 && totals[1].steps > 1_000);
    assert!(totals[1].stopped > 1_000 && totals[1].stopped_at_the_start > 100);
}

/// One step from forged stores: the machine is put into the state that the store holds. Lists with an ID
/// twice are left out on the linear machine, which has none: `rules` tells what they do.
#[test]
fn both_machines_from_forged_stores() {
    let mut totals = Totals::default();
    for index in 0..6_000 {
        let mut rng = Rng::of_case(28, index);
        let machine = [Machine::Source, Machine::Linear][index as usize % 2];
        let image = crate::image(&mut rng, machine);
        let stepper = Stepper::new(machine, &image);
        let oracle = Oracle::new(&image);
        let prog = oracle.program().expect("an image");
        let Some(mut store) = crate::started(&mut rng, &image, &stepper, PLENTY) else {
            continue;
        };
        stepper.step(rng.below(30) as u64, &mut store, &mut vec![0; PLENTY]);
        let places = Places::of(prog);
        let forged = Forged {
            machine,
            stepper: &stepper,
            places: &places,
            prog,
        };
        for _ in 0..20 {
            let mut damaged = store[..stores::size(&store) + 4_200].to_vec();
            stores::damage(&mut rng, &mut damaged);
            forged.compare(&mut damaged, &mut totals);
        }
    }
    println!("{totals:?}");
    assert!(totals.steps > 3_000 && totals.stuck > 1_000 && totals.stopped > 1_000);
    assert!(totals.ended > 100 && totals.silent > 300);
}

struct Forged<'a> {
    machine: Machine,
    stepper: &'a Stepper,
    places: &'a Places<'a>,
    prog: &'a Prog,
}

impl<'a> Forged<'a> {
    /// The machine in that state: begun somewhere, and put there.
    fn model(&self, state: &stepper::State) -> Option<Model<'a>> {
        let begun = |place: usize| {
            let given = vec![Given::Int(0); self.prog.defs[place].params.len()];
            match Model::start(self.machine, self.prog, place, &given) {
                Start::Begun(model) => Some(model),
                Start::NotBegun | Start::Stopped => None,
            }
        };
        let mut model = (0..self.prog.defs.len()).find_map(begun)?;
        *model.state() = self.places.model(state);
        Some(model)
    }

    /// Whether the list is one that the machine may have.
    fn has(&self, state: &stepper::State) -> bool {
        let mut ids: Vec<u32> = state.entries.iter().map(|entry| entry.id).collect();
        ids.sort_unstable();
        self.machine == Machine::Source || ids.windows(2).all(|two| two[0] != two[1])
    }

    fn compare(&self, store: &mut [u8], totals: &mut Totals) {
        let program = self.stepper.program().unwrap();
        let before = store::state(program, store);
        let Some(state) = before.filter(|state| self.has(state)) else {
            return;
        };
        let damaged = store.to_vec();
        let Some(mut model) = self.model(&state) else {
            return;
        };
        let mut events = vec![0; PLENTY];
        let answer = self.stepper.step(1, store, &mut events);
        assert_eq!(answer.number, 0);
        let outcome = if state.stopped {
            Outcome::Stops
        } else {
            model.step()
        };
        let shown = match outcome {
            Outcome::Shows(event) => bytes(&event),
            Outcome::Silent => Vec::new(),
            Outcome::Halts | Outcome::Stops => {
                // a clear flag where the machine stops stays clear
                assert_eq!((answer.made, answer.length), (0, 0));
                assert!(damaged == *store);
                match outcome {
                    Outcome::Stops => totals.stopped += 1,
                    _ => totals.stuck += 1,
                }
                return;
            }
        };
        assert_eq!((answer.made, answer.length), (1, shown.len()));
        assert!(events[..answer.length] == shown);
        let after = store::state(program, store).expect("a state");
        assert!(
            self.places
                .same(&after, model.state(), self.machine == Machine::Linear)
        );
        assert_eq!(after.stopped, model.step() == Outcome::Stops);
        totals.steps += 1;
        totals.silent += usize::from(shown.is_empty());
        totals.ended += usize::from(after.ended);
    }
}

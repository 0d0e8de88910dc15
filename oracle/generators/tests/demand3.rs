//! The claim of demand 3 over generated accepted programs: the source machine on the program, the
//! linear machine on what the unchanged Rust gives for it. And outputs that are wrong break it.

use generators::{Rng, build, small, starts, typed, wild};
use reference::demand3::{Broken, End, Watched, watch};
use reference::machines::{Event, Given, Outcome, Source, Start};
use reference::oracle::Oracle;
use reference::syntax::{BinOp, Binding, Pair, Prog, Statement};

const STEPS: usize = 300;

#[derive(Debug, Default)]
struct Totals {
    runs: usize,
    not_begun: usize,
    events: usize,
    substitutes: usize,
    ended: usize,
    stuck: usize,
    still_running: usize,
}

impl Totals {
    fn add(&mut self, watched: Watched) {
        self.runs += 1;
        self.events += watched.events;
        self.substitutes += watched.substitutes;
        match watched.end {
            End::NotBegun => self.not_begun += 1,
            End::Ended => self.ended += 1,
            End::Stuck => self.stuck += 1,
            End::StillRunning => self.still_running += 1,
        }
    }
}

fn linearized(prog: &Prog) -> Prog {
    let oracle = Oracle::new(&build::image(prog));
    oracle.linearized().expect("a yes to 1 to 10").clone()
}

/// Runs of each program from some starts.
fn hold(programs: impl Iterator<Item = Prog>) -> Totals {
    let mut totals = Totals::default();
    for (index, prog) in programs.enumerate() {
        let linear = linearized(&prog);
        let mut rng = Rng::of_case(3, index as u64);
        for _ in 0..4 {
            let (place, given) = starts::start(&mut rng, &prog);
            let watched = watch(&prog, &linear, place, &given, STEPS);
            totals.add(watched.unwrap_or_else(|broken| panic!("program {index}: {broken:?}")));
        }
    }
    println!("{totals:?}");
    totals
}

fn typed_programs(count: u64) -> impl Iterator<Item = Prog> {
    (0..count).map(|index| typed::program(&mut Rng::of_case(2, index)))
}

#[test]
fn it_holds_of_programs_that_run_far() {
    let totals = hold(typed_programs(20_000));
    assert!(totals.events > 1_000_000 && totals.substitutes > 300_000);
    assert!(totals.ended > 1_000 && totals.stuck > 1_000 && totals.still_running > 1_000);
    assert!(totals.not_begun > 1_000);
}

#[test]
fn runs_show_every_kind_of_event() {
    let mut shown = [0; 11];
    for (index, prog) in typed_programs(1_000).enumerate() {
        let (place, given) = starts::start(&mut Rng::of_case(6, index as u64), &prog);
        let Start::Begun(mut source) = Source::start(&prog, place, &given) else {
            continue;
        };
        for _ in 0..STEPS {
            let Outcome::Shows(event) = source.step() else {
                break;
            };
            shown[kind(&event)] += 1;
        }
    }
    println!("{shown:?}");
    assert!(shown.iter().all(|&count| count > 40), "{shown:?}");
}

fn kind(event: &Event) -> usize {
    match event {
        Event::Call { .. } => 0,
        Event::Let { .. } => 1,
        Event::Switch { .. } => 2,
        Event::Create { .. } => 3,
        Event::Invoke { .. } => 4,
        Event::InvokeOutside { .. } => 5,
        Event::Literal(_) => 6,
        Event::Op(_) => 7,
        Event::IfC { .. } => 8,
        Event::PrintI64 { .. } => 9,
        Event::Exit { .. } => 10,
    }
}

#[test]
fn it_holds_of_wild_programs() {
    let totals = hold((0..10_000).map(|index| wild::program(&mut Rng::of_case(4, index))));
    assert!(totals.events > 30_000 && totals.substitutes > 10_000 && totals.stuck > 10_000);
}

#[test]
fn it_holds_of_small_programs() {
    let accepted = small::programs().into_iter().filter(|prog| {
        let oracle = Oracle::new(&build::image(prog));
        oracle.check().number == 0
    });
    assert!(hold(accepted).runs > 30_000);
}

/// How the claim fails of typed programs when their outputs are changed, by kind of failure.
fn broken_by(change: impl Fn(&Prog, Prog) -> Prog) -> [usize; 4] {
    let mut broken = [0; 4];
    for (index, prog) in typed_programs(2_000).enumerate() {
        let wrong = change(&prog, linearized(&prog));
        let (place, given) = starts::start(&mut Rng::of_case(5, index as u64), &prog);
        match watch(&prog, &wrong, place, &given, STEPS) {
            Ok(_) => {}
            Err(Broken::Starts) => broken[0] += 1,
            Err(Broken::Stops { .. }) => broken[1] += 1,
            Err(Broken::Substitutes { .. }) => broken[2] += 1,
            Err(Broken::Events { .. }) => broken[3] += 1,
        }
    }
    broken
}

#[test]
fn it_fails_of_the_copied_source() {
    let [_, stops, _, _] = broken_by(|source, _| source.clone());
    assert!(stops > 1_000, "{stops}");
}

#[test]
fn it_fails_of_one_fixed_program() {
    let fixed = build::one(1, Vec::new(), build::call(Vec::new()));
    let broken = broken_by(|_, _| fixed.clone());
    assert!(broken[0] > 1_000, "{broken:?}");
}

#[test]
fn it_fails_where_only_the_first_definition_is_linearized() {
    let broken = broken_by(|source, mut output| {
        for (wrong, copied) in output.defs.iter_mut().zip(&source.defs).skip(1) {
            wrong.clone_from(copied);
        }
        output
    });
    assert!(broken[1] > 200, "{broken:?}");
}

/// The output with each outermost statement changed.
fn change_bodies(mut output: Prog, change: fn(&mut Statement)) -> Prog {
    output.defs.iter_mut().for_each(|def| change(&mut def.body));
    output
}

#[test]
fn it_fails_of_a_second_substitute() {
    let doubled = |body: &mut Statement| {
        if let Statement::Substitute { rearrange, next } = body {
            let again = rearrange.iter().map(|pair| identity(pair.target)).collect();
            **next = build::substitute(again, (**next).clone());
        }
    };
    let broken = broken_by(|_, output| change_bodies(output, doubled));
    assert!(broken[2] > 200, "{broken:?}");
}

fn identity(target: Binding) -> Pair {
    Pair {
        target,
        source: target.var,
    }
}

#[test]
fn it_fails_of_another_integer() {
    let changed = |body: &mut Statement| {
        if let Statement::Literal { lit, .. } = body {
            *lit ^= 1;
        }
    };
    let broken = broken_by(|_, output| change_bodies(output, changed));
    assert!(broken[3] > 50, "{broken:?}");
}

#[test]
fn it_fails_where_a_run_goes_on() {
    // the source divides by zero and is stuck; a sum goes on
    let divides = |op| {
        let body = build::op(1, op, 2, 3, build::call(build::exts(1, 2)));
        build::one(3, build::exts(1, 2), body)
    };
    let source = divides(BinOp::Div);
    let output = linearized(&divides(BinOp::Sum));
    let given = [Given::Int(1), Given::Int(0)];
    let broken = watch(&source, &output, 0, &given, STEPS);
    assert!(matches!(
        broken,
        Err(Broken::Events {
            after: 0,
            source: None,
            linear: Some(_)
        })
    ));
    assert!(watch(&source, &linearized(&source), 0, &given, STEPS).is_ok());
}

//! The oracle's machines on a run, and their events as bytes.

use super::runs::Run;
use reference::machines::{Event, Linear, Outcome, Source, Start, State, Value};
use stepper::Machine;

/// A machine in a run.
#[derive(Debug, Clone)]
pub enum Oracle<'a> {
    Source(Source<'a>),
    Linear(Linear<'a>),
}

impl<'a> Oracle<'a> {
    /// The machine at the start of the run, if there is such a start.
    pub fn start(run: &'a Run) -> Option<Oracle<'a>> {
        let (program, place, given) = (&run.program, run.definition, &run.given);
        match run.machine {
            Machine::Source => match Source::start(program, place, given) {
                Start::Begun(machine) => Some(Oracle::Source(machine)),
                Start::NotBegun | Start::Stopped => None,
            },
            Machine::Linear => match Linear::start(program, place, given) {
                Start::Begun(machine) => Some(Oracle::Linear(machine)),
                Start::NotBegun | Start::Stopped => None,
            },
        }
    }

    pub fn state(&self) -> &State<'a> {
        match self {
            Oracle::Source(machine) => &machine.state,
            Oracle::Linear(machine) => &machine.state,
        }
    }

    /// Makes at most so many steps, and answers how many. Each is told, with its event if it has one.
    pub fn advance(&mut self, steps: u64, told: impl FnMut(Option<Event>)) -> u64 {
        match self {
            Oracle::Source(machine) => advance(steps, || machine.step(), told),
            Oracle::Linear(machine) => advance(steps, || machine.step(), told),
        }
    }

    /// Makes room for so many cells, which a copy of a machine lacks.
    pub fn reserve(&mut self, cells: usize) {
        match self {
            Oracle::Source(machine) => machine.state.cells.reserve(cells),
            Oracle::Linear(machine) => machine.state.cells.reserve(cells),
        }
    }
}

fn advance(
    steps: u64,
    mut next: impl FnMut() -> Outcome,
    mut told: impl FnMut(Option<Event>),
) -> u64 {
    for made in 0..steps {
        match next() {
            Outcome::Shows(event) => told(Some(event)),
            Outcome::Silent => told(None),
            Outcome::Halts | Outcome::Stops => return made,
        }
    }
    steps
}

/// The kind of the statement that shows the event.
pub fn kind(event: &Event) -> u8 {
    match event {
        Event::Call { .. } => 3,
        Event::Let { .. } => 4,
        Event::Switch { .. } => 5,
        Event::Create { .. } => 6,
        Event::Invoke { .. } | Event::InvokeOutside { .. } => 7,
        Event::Literal(_) => 8,
        Event::Op(_) => 9,
        Event::IfC { .. } => 10,
        Event::PrintI64 { .. } => 12,
        Event::Exit { .. } => 13,
    }
}

/// Puts the event's bytes behind others, as docs/FORMAT.md has them.
pub fn put(event: &Event, out: &mut Vec<u8>) {
    let none: &[Value] = &[];
    let (sort, name, number, args) = match event {
        Event::Call { label } => (0, label.0, 0, none),
        Event::Let { cell, tag } | Event::Switch { cell, tag } | Event::Invoke { cell, tag } => {
            (1, tag.0, *cell as u64, none)
        }
        Event::Create { cell } => (1, 0, *cell as u64, none),
        Event::InvokeOutside { number, tag, args } => (2, tag.0, u64::from(*number), &args[..]),
        Event::Literal(integer) | Event::Op(integer) => (0, 0, *integer as u64, none),
        Event::IfC { then_branch } => (u8::from(*then_branch), 0, 0, none),
        Event::PrintI64 { value, newline } => (u8::from(*newline), 0, *value as u64, none),
        Event::Exit { value } => {
            let (sort, number) = sorted(*value);
            (sort, 0, number, none)
        }
    };
    let mut slot = [0; 16];
    slot[0] = kind(event);
    slot[1] = sort;
    slot[2..4].copy_from_slice(&name.to_le_bytes());
    slot[4..8].copy_from_slice(&(args.len() as u32).to_le_bytes());
    slot[8..].copy_from_slice(&number.to_le_bytes());
    out.extend_from_slice(&slot);
    for &value in args {
        let (sort, number) = sorted(value);
        out.extend_from_slice(&[sort, 0, 0, 0, 0, 0, 0, 0]);
        out.extend_from_slice(&number.to_le_bytes());
    }
}

/// The sort of a value, and its number.
fn sorted(value: Value) -> (u8, u64) {
    match value {
        Value::Int(integer) => (0, integer as u64),
        Value::Cell(number) => (1, number as u64),
        Value::Outside(number) => (2, number.into()),
    }
}

/// The bytes of a start's values.
pub fn values(run: &Run) -> Vec<u8> {
    let mut bytes = Vec::new();
    for &given in &run.given {
        let (sort, number) = sorted(given.into());
        bytes.extend([sort, 0, 0, 0, 0, 0, 0, 0]);
        bytes.extend(number.to_le_bytes());
    }
    bytes
}

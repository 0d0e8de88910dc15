//! The calls: a start, and steps.

use crate::event::Event;
use crate::program::Program;
use crate::slot::{SLOT, Slot, sort};
use crate::state::{State, Value};
use crate::step::{Change, No, Step, bound};
use crate::{linear, source, store};
use reference::image::Frame;
use reference::oracle::Oracle;

/// Question 14: the start, or the store.
pub const REFUSED: u8 = 14;
/// Question 15: room.
pub const NO_ROOM: u8 = 15;

#[derive(Debug, Clone, Copy, PartialEq, Eq)]
pub enum Machine {
    Source,
    Linear,
}

/// What a call of steps reports.
#[derive(Debug, Clone, Copy, PartialEq, Eq)]
pub struct Answer {
    pub number: u8,
    pub made: u64,
    pub length: usize,
}

pub fn start(
    machine: Machine,
    image: &[u8],
    definition: usize,
    values: &[u8],
    store: &mut [u8],
) -> u8 {
    Stepper::new(machine, image).start(definition, values, store)
}

pub fn step(
    machine: Machine,
    image: &[u8],
    steps: u64,
    store: &mut [u8],
    events: &mut [u8],
) -> Answer {
    Stepper::new(machine, image).step(steps, store, events)
}

/// One image examined once, for one of the machines.
pub struct Stepper {
    machine: Machine,
    /// The program, or the number of the image's first no.
    program: Result<Program, u8>,
}

impl Stepper {
    /// "The source stepper asks 1 to 10 first, the linear one 1 to 5."
    pub fn new(machine: Machine, image: &[u8]) -> Stepper {
        let oracle = Oracle::new(image);
        let answer = match machine {
            Machine::Source => oracle.check(),
            Machine::Linear => oracle.read(),
        };
        let program = match (answer.number, Frame::read(image)) {
            (0, Ok(frame)) => Ok(Program::new(frame.records)),
            (number, _) => Err(number),
        };
        Stepper { machine, program }
    }

    /// The program, where the image was accepted.
    pub fn program(&self) -> Result<&Program, u8> {
        self.program.as_ref().map_err(|&number| number)
    }

    /// The number; with 0 the store begins with the state, and with any other it is as it was.
    pub fn start(&self, definition: usize, values: &[u8], store: &mut [u8]) -> u8 {
        match self.begun(definition, values) {
            Ok(state) if state.size() <= store.len() => {
                write(&state, store);
                0
            }
            Ok(_) => NO_ROOM,
            Err(number) => number,
        }
    }

    fn begun(&self, definition: usize, values: &[u8]) -> Result<State, u8> {
        let program = self.program()?;
        let definition = program.definition(definition).ok_or(REFUSED)?;
        let values = given(values).ok_or(REFUSED)?;
        let params = bound(program.params(definition), &values).ok_or(REFUSED)?;
        // "a start whose parameters repeat an ID has stopped with no step made"
        let repeats = linear::repeats(&params);
        let state = State {
            position: program.next(definition),
            ended: false,
            stopped: self.machine == Machine::Linear && repeats,
            cells: Vec::new(),
            entries: params,
        };
        Ok(self.looking_ahead(program, state))
    }

    /// "A call makes at most the given number of steps, writes the events into a second buffer from its
    /// beginning, and says how many steps and event bytes it made."
    pub fn step(&self, steps: u64, store: &mut [u8], events: &mut [u8]) -> Answer {
        let mut answer = Answer {
            number: 0,
            made: 0,
            length: 0,
        };
        let read = self
            .program()
            .and_then(|program| Ok((program, store::state(program, store).ok_or(REFUSED)?)));
        let (program, mut state) = match read {
            Ok(read) => read,
            Err(number) => return Answer { number, ..answer },
        };
        while answer.made < steps {
            let Ok(step) = self.next(program, &state) else {
                break;
            };
            let shown = step.event.as_ref().map_or(Vec::new(), Event::bytes);
            let after = self.looking_ahead(program, changed(state, step));
            let end = answer.length + shown.len();
            if after.size() > store.len() || end > events.len() {
                answer.number = NO_ROOM;
                break;
            }
            write(&after, store);
            events[answer.length..end].copy_from_slice(&shown);
            answer.made += 1;
            answer.length = end;
            state = after;
        }
        answer
    }

    /// No step of a state with a flag set; else the machine's.
    fn next(&self, program: &Program, state: &State) -> Result<Step, No> {
        if state.ended || state.stopped {
            return Err(No::Next);
        }
        match self.machine {
            Machine::Source => source::next(program, state).ok_or(No::Next),
            Machine::Linear => linear::next(program, state),
        }
    }

    /// "The stopped flag [is set] by the step or start after which the machine stops."
    fn looking_ahead(&self, program: &Program, state: State) -> State {
        let stops = self.next(program, &state) == Err(No::Id);
        State {
            stopped: state.stopped || stops,
            ..state
        }
    }
}

/// The state after a step.
fn changed(state: State, step: Step) -> State {
    let mut after = state;
    match step.change {
        // the flag alone: position, entries and cells stay
        Change::Ends => after.ended = true,
        Change::Goes {
            position,
            entries,
            cell,
        } => {
            after.position = position;
            after.entries = entries;
            after.cells.extend(cell);
        }
    }
    after
}

/// "Each step writes its state over the store from the beginning." Bytes behind it stay.
fn write(state: &State, store: &mut [u8]) {
    let bytes = store::bytes(state);
    store[..bytes.len()].copy_from_slice(&bytes);
}

/// The values of a start: integers and outside numbers, in slots without ID.
fn given(values: &[u8]) -> Option<Vec<Value>> {
    let (slots, rest) = values.as_chunks::<SLOT>();
    if !rest.is_empty() {
        return None;
    }
    slots
        .iter()
        .map(|slot| {
            let slot = Slot::read(slot).filter(|slot| slot.word == 0)?;
            match slot.sort {
                sort::INTEGER => Some(Value::Integer(slot.long as i64)),
                sort::OUTSIDE => u8::try_from(slot.long).ok().map(Value::Outside),
                _ => None,
            }
        })
        .collect()
}

//! The claim of demand 3 about the two runs from one start, watched for a number of steps.

use crate::machines::{Event, Given, Linear, Outcome, Source, Start};
use crate::syntax::Prog;

/// What was watched.
#[derive(Debug, Clone, Copy, Default, PartialEq, Eq)]
pub struct Watched {
    /// The source machine's steps, each of which showed one event.
    pub events: usize,
    /// The Substitutes that the linear machine made between them.
    pub substitutes: usize,
    /// How the source run went on after the last event.
    pub end: End,
}

#[derive(Debug, Clone, Copy, Default, PartialEq, Eq)]
pub enum End {
    /// Neither run began.
    #[default]
    NotBegun,
    StillRunning,
    /// An outside number was invoked, or the run came to an Exit.
    Ended,
    /// There is no next step.
    Stuck,
}

/// How the claim failed.
#[derive(Debug, Clone, PartialEq, Eq)]
pub enum Broken {
    /// One run began and the other did not, or the linear machine stopped at its start.
    Starts,
    /// The linear machine stops after this many of the source's events.
    Stops { after: usize },
    /// The linear machine makes two Substitutes without an event between them.
    Substitutes { after: usize },
    /// The next events differ; `None` is no next step.
    Events {
        after: usize,
        source: Option<Event>,
        linear: Option<Event>,
    },
}

/// Runs both machines from the same start, at most `steps` steps of the source machine: the linear
/// machine never stops, shows the same events with at most one Substitute before each, and has no
/// next step where the source has none, at once or after one Substitute.
pub fn watch(
    source: &Prog,
    linearized: &Prog,
    place: usize,
    given: &[Given],
    steps: usize,
) -> Result<Watched, Broken> {
    let mut watched = Watched::default();
    let (mut source, mut linear) = match (
        Source::start(source, place, given),
        Linear::start(linearized, place, given),
    ) {
        (Start::Begun(source), Start::Begun(linear)) => (source, linear),
        (Start::NotBegun, Start::NotBegun) => return Ok(watched),
        _ => return Err(Broken::Starts),
    };
    watched.end = End::StillRunning;
    while watched.events < steps {
        let expected = shown(source.step());
        let shown = next_shown(&mut linear, &mut watched)?;
        if expected != shown {
            return Err(Broken::Events {
                after: watched.events,
                source: expected,
                linear: shown,
            });
        }
        if expected.is_none() {
            watched.end = if source.state.ended {
                End::Ended
            } else {
                End::Stuck
            };
            break;
        }
        watched.events += 1;
    }
    Ok(watched)
}

fn shown(outcome: Outcome) -> Option<Event> {
    match outcome {
        Outcome::Shows(event) => Some(event),
        Outcome::Silent | Outcome::Halts | Outcome::Stops => None,
    }
}

/// The linear machine's next event, with at most one Substitute before it.
fn next_shown(linear: &mut Linear, watched: &mut Watched) -> Result<Option<Event>, Broken> {
    let after = watched.events;
    let mut outcome = linear.step();
    if outcome == Outcome::Silent {
        watched.substitutes += 1;
        outcome = linear.step();
    }
    match outcome {
        Outcome::Silent => Err(Broken::Substitutes { after }),
        Outcome::Stops => Err(Broken::Stops { after }),
        Outcome::Shows(_) | Outcome::Halts => Ok(shown(outcome)),
    }
}

//! The generated programs reach the limits of question 7, and every way through the pass.

use generators::{Rng, build, large, wild};
use reference::image::{Record, order};
use reference::oracle::Oracle;
use reference::syntax::{Clause, Prog, Statement};

/// The largest of each measure over the programs, and how often the pass did what.
#[derive(Debug, Default)]
struct Reached {
    records: usize,
    depth: usize,
    scope: usize,
    definitions: usize,
    params: usize,
    args: usize,
    clauses: usize,
    pairs: usize,
    drawn: u32,
    /// Statements by kind with a Substitute before them and without: Call, Let, Switch, Create,
    /// Invoke, Literal, Op, PrintI64.
    substituted: [usize; 8],
    right: [usize; 8],
    /// Exits, before which no Substitute comes.
    exits: usize,
    /// Programs without any Substitute.
    linear: usize,
}

impl Reached {
    fn source(&mut self, prog: &Prog) {
        let records = order::records(prog);
        self.records = self.records.max(records.len());
        self.definitions = self.definitions.max(prog.defs.len());
        for record in &records {
            match record {
                Record::Definition { params, .. } | Record::Clause { params, .. } => {
                    self.params = self.params.max(params.len());
                }
                Record::Call { args, .. }
                | Record::Let { args, .. }
                | Record::Invoke { args, .. } => {
                    self.args = self.args.max(args.len());
                }
                Record::Switch { clauses, .. } | Record::Create { clauses, .. } => {
                    self.clauses = self.clauses.max(usize::from(*clauses));
                }
                Record::Substitute { .. }
                | Record::Literal { .. }
                | Record::Op { .. }
                | Record::IfC { .. }
                | Record::PrintI64 { .. }
                | Record::Exit { .. } => {}
            }
        }
        for def in &prog.defs {
            self.below(&def.body, 1, def.params.len());
        }
    }

    fn below(&mut self, statement: &Statement, depth: usize, scope: usize) {
        self.depth = self.depth.max(depth);
        self.scope = self.scope.max(scope);
        let in_clauses = |reached: &mut Reached, clauses: &[Clause]| {
            for clause in clauses {
                reached.below(&clause.body, depth + 1, scope + clause.params.len());
            }
        };
        match statement {
            Statement::Let { next, .. }
            | Statement::Literal { next, .. }
            | Statement::Op { next, .. } => {
                self.below(next, depth + 1, scope + 1);
            }
            Statement::Switch { clauses, .. } => in_clauses(self, clauses),
            Statement::Create { clauses, next, .. } => {
                in_clauses(self, clauses);
                self.below(next, depth + 1, scope + 1);
            }
            Statement::IfC { thenc, elsec, .. } => {
                self.below(thenc, depth + 1, scope);
                self.below(elsec, depth + 1, scope);
            }
            Statement::PrintI64 { next, .. } => self.below(next, depth + 1, scope),
            Statement::Substitute { .. }
            | Statement::Call { .. }
            | Statement::Invoke { .. }
            | Statement::Exit { .. } => {}
        }
    }

    fn output(&mut self, prog: &Prog) {
        let records = order::records(prog);
        let mut before: Option<&Record> = None;
        let mut linear = true;
        for record in &records {
            if let Record::Substitute { rearrange } = record {
                self.pairs = self.pairs.max(rearrange.len());
                linear = false;
            } else if let Record::Exit { .. } = record {
                assert!(!matches!(before, Some(Record::Substitute { .. })));
                self.exits += 1;
            } else if let Some(kind) = kind(record) {
                match before {
                    Some(Record::Substitute { .. }) => self.substituted[kind] += 1,
                    _ => self.right[kind] += 1,
                }
            }
            before = Some(record);
        }
        self.linear += usize::from(linear);
    }
}

fn kind(record: &Record) -> Option<usize> {
    match record {
        Record::Call { .. } => Some(0),
        Record::Let { .. } => Some(1),
        Record::Switch { .. } => Some(2),
        Record::Create { .. } => Some(3),
        Record::Invoke { .. } => Some(4),
        Record::Literal { .. } => Some(5),
        Record::Op { .. } => Some(6),
        Record::PrintI64 { .. } => Some(7),
        Record::Definition { .. }
        | Record::Substitute { .. }
        | Record::IfC { .. }
        | Record::Clause { .. }
        | Record::Exit { .. } => None,
    }
}

#[test]
fn the_limits_are_reached() {
    let mut reached = Reached::default();
    for index in 0..12_000 {
        let prog = wild::program(&mut Rng::of_case(12, index));
        let oracle = Oracle::new(&build::image(&prog));
        let output = oracle.linearized().expect("a yes to 1 to 10");
        reached.source(&prog);
        reached.output(output);
        reached.drawn = reached.drawn.max(output.max_id.0 - prog.max_id.0);
    }
    println!("{reached:#?}");
    assert_eq!((reached.depth, reached.scope), (64, 64));
    assert_eq!(
        (reached.params, reached.args, reached.clauses),
        (32, 32, 32)
    );
    assert!(reached.records > 1_500 && reached.definitions > 50);
    assert!(reached.pairs > 64 && reached.drawn > 1_000);
    assert!(reached.linear > 500);
    assert!(reached.substituted.iter().all(|&count| count > 1_000));
    assert!(reached.right.iter().all(|&count| count > 1_000));
    assert!(reached.exits > 1_000);
}

#[test]
fn outputs_on_both_sides_of_the_largest_image() {
    let mut answers = [0; 14];
    for index in 0..200 {
        let prog = large::near_the_largest(&mut Rng::of_case(14, index));
        let oracle = Oracle::new(&build::image(&prog));
        let answer = oracle.linearize(&mut vec![0; 70_000]);
        answers[usize::from(answer.number)] += 1;
    }
    assert!(answers[0] > 20 && answers[12] > 20, "{answers:?}");
    assert_eq!(answers[0] + answers[12], 200);
}

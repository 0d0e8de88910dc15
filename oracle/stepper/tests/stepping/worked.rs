//! The stepped case of docs/FORMAT.md, made here and compared with what stands there.

use generators::{build, stores};
use reference::machines::Given;
use reference::syntax::{Binding, Chirality, Clause, Def, Id, Identifier, Name, Prog};
use reference::syntax::{Statement, Ty};
use stepper::{Machine, Stepper};

const FORMAT: &str = include_str!("../../../../docs/FORMAT.md");

fn name(name: u16) -> Identifier {
    Identifier {
        name: Name(name),
        id: Id(0),
    }
}

/// The variables have name 2.
fn var(id: u32) -> Identifier {
    Identifier {
        name: Name(2),
        id: Id(id),
    }
}

fn integer(id: u32) -> Binding {
    Binding {
        var: var(id),
        chi: Chirality::Ext,
        ty: Ty::I64,
    }
}

fn data() -> Ty {
    Ty::Decl(name(3))
}

fn cell(id: u32) -> Binding {
    Binding {
        var: var(id),
        chi: Chirality::Prd,
        ty: data(),
    }
}

fn made(id: u32, tag: u16, args: Vec<Binding>, next: Statement) -> Statement {
    Statement::Let {
        var: var(id),
        ty: data(),
        tag: name(tag),
        args,
        next: Box::new(next),
    }
}

/// One definition (1): Literal 7 to 2; Let 3 of 2; Let 4 of 1 and 3; Switch 4 with one clause (5, 6):
/// PrintI64 of 5 with a newline; Exit of 6. Definition, variables and type have the names 1 to 3, the tags
/// 4 and 5.
fn program() -> Prog {
    let shown = Statement::PrintI64 {
        newline: true,
        var: var(5),
        next: Box::new(Statement::Exit { var: var(6) }),
    };
    let clauses = vec![Clause {
        xtor: name(5),
        params: vec![integer(5), cell(6)],
        body: shown,
    }];
    let switched = Statement::Switch {
        var: var(4),
        ty: data(),
        clauses,
    };
    let second = made(4, 5, vec![integer(1), cell(3)], switched);
    let body = Statement::Literal {
        lit: 7,
        var: var(2),
        next: Box::new(made(3, 4, vec![integer(2)], second)),
    };
    Prog {
        defs: vec![Def {
            name: name(1),
            params: vec![integer(1)],
            body,
        }],
        max_id: Id(6),
    }
}

/// The bytes in the tables of a section, from a heading to the next one. Each row says where it begins.
fn documented(heading: &str) -> Vec<u8> {
    let begin = FORMAT.find(heading).expect("the section") + heading.len();
    let section = &FORMAT[begin..];
    let section = section.find("\n#").map_or(section, |end| &section[..end]);
    let (mut all, mut table) = (Vec::new(), 0);
    for line in section.lines().filter(|line| line.contains('`')) {
        let Some(cells) = line.strip_prefix("| ") else {
            continue;
        };
        let mut cells = cells.split(" | ");
        let at: usize = cells.next().unwrap().parse().expect("where it begins");
        let bytes = cells.next().unwrap().trim_matches('`');
        if at == 0 {
            table = all.len();
        }
        assert_eq!(at, all.len() - table, "{line}");
        all.extend(bytes.split(' ').map(byte));
    }
    all
}

fn byte(digits: &str) -> u8 {
    u8::from_str_radix(digits, 16).expect("a byte")
}

/// The case with that machine: stores after the start and after each step, and the events.
fn stepped(machine: Machine) -> (Vec<Vec<u8>>, Vec<u8>) {
    let image = build::image(&program());
    let stepper = Stepper::new(machine, &image);
    let mut store = vec![0xA5; 300];
    let values = stores::values(&[Given::Int(-3)]);
    assert_eq!(stepper.start(0, &values, &mut store), 0);
    let state = |store: &[u8]| store[..stores::size(store)].to_vec();
    let (mut states, mut shown) = (vec![state(&store)], Vec::new());
    for _ in 0..6 {
        let mut events = [0; 16];
        let answer = stepper.step(1, &mut store, &mut events);
        assert_eq!((answer.number, answer.made, answer.length), (0, 1, 16));
        states.push(state(&store));
        shown.extend(events);
    }
    let answer = stepper.step(1, &mut store, &mut []);
    assert_eq!((answer.number, answer.made), (0, 0));
    (states, shown)
}

fn rows(bytes: &[u8]) -> String {
    let row = |row: &[u8]| {
        let words: Vec<String> = row.iter().map(|byte| format!("{byte:02X}")).collect();
        words.join(" ") + "\n"
    };
    bytes.chunks(16).map(row).collect()
}

#[test]
fn the_image_is_documented() {
    let image = build::image(&program());
    println!("{}", rows(&image));
    assert_eq!(documented("\n### A stepped case\n"), image);
}

#[test]
fn the_start_is_documented() {
    let (states, _) = stepped(Machine::Linear);
    let values = stores::values(&[Given::Int(-3)]);
    let expected = [values, states[0].clone()].concat();
    println!("{}", rows(&expected));
    assert_eq!(documented("\n#### Its start\n"), expected);
}

#[test]
fn the_steps_are_documented() {
    let (states, shown) = stepped(Machine::Linear);
    let expected = [states[3].clone(), states[6].clone(), shown].concat();
    println!("{}", rows(&expected));
    assert_eq!(documented("\n#### Its steps\n"), expected);
}

/// The source machine shows the same events, and keeps everything.
#[test]
fn the_source_machine_is_documented() {
    let (states, shown) = stepped(Machine::Source);
    assert_eq!(shown, stepped(Machine::Linear).1);
    println!("{}", rows(&states[6]));
    assert_eq!(
        documented("\n#### The same on the source machine\n"),
        states[6]
    );
}

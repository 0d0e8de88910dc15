//! PrintI64 and Exit in a text.

use assembler::assemble;
use generators::build::{call, exit, ext, exts, image, literal, named, one, print_i64};
use reference::syntax::{Prog, Statement};

/// The text of one definition with two parameters of name 7.
fn text(body: &str) -> String {
    format!("max_id 9\ndef n0(n7_1: ext i64, n7_2: ext i64) {{ {body} }}")
}

fn prog(body: Statement) -> Prog {
    one(9, exts(1, 2), body)
}

#[track_caller]
fn reads_as(body: &str, statement: Statement) {
    let made = assemble(&text(body)).unwrap_or_else(|fault| panic!("{fault:?}"));
    assert_eq!(made.image, image(&prog(statement)));
}

#[track_caller]
fn lacks(body: &str, what: &str) {
    let fault = assemble(&text(body)).expect_err("a fault");
    assert_eq!((fault.line, fault.what), (2, format!("{what} is missing")));
}

#[test]
fn the_words_of_the_printer() {
    reads_as("exit n7_2", exit(2));
    reads_as("print_i64(n7_1); exit n7_2", print_i64(false, 1, exit(2)));
    reads_as("println_i64(n7_1); exit n7_2", print_i64(true, 1, exit(2)));
    let body = print_i64(
        true,
        2,
        literal(5, 3, print_i64(false, 3, call(vec![ext(1)]))),
    );
    let lines = "println_i64(n7_2);\nlit n7_3 <- 5;\nprint_i64(n7_3);\nn0(n7_1: ext i64)";
    reads_as(lines, body);
}

/// A variable may go without its ID, and may be spelled in another way.
#[test]
fn variables() {
    let spelled = Statement::PrintI64 {
        newline: false,
        var: named(8, 1),
        next: Box::new(Statement::Exit { var: named(9, 2) }),
    };
    reads_as("print_i64(n8_1); exit n9_2", spelled);
    // the binder of that name that is in scope
    reads_as("print_i64(n7); exit n7", print_i64(false, 2, exit(2)));
    let fault = assemble(&text("exit n5")).expect_err("a fault");
    assert_eq!(fault.line, 2);
}

#[test]
fn faults() {
    lacks("print_i64(n7_1) exit n7_2", ";");
    lacks("print_i64(n7_1);", "a statement");
    lacks("print_i64 n7_1; exit n7_2", "(");
    lacks("exit n7_1;", "}");
    lacks("exit(n7_1)", "a name");
    lacks("exit n7_1 exit n7_1", "}");
}

/// The words are those of the statements; a label of the name is called with its ID.
#[test]
fn labels_with_the_names_of_statements() {
    for name in ["exit", "print_i64", "println_i64"] {
        let made = assemble(&format!("def {name}() {{ {name}_0() }}")).expect("a text");
        let call = Statement::Call {
            label: named(1, 0),
            args: Vec::new(),
        };
        let mut prog = one(0, Vec::new(), call);
        prog.defs[0].name = named(1, 0);
        assert_eq!(made.image, image(&prog));
        assert_eq!(made.names.lines(), format!("1 {name}\n"));
    }
}

//! The file is small, the same every time, covers every answer of every function, and replays.

use generators::boundaries::Call;
use reference::calls;
use reference::oracle::{Answer, Oracle};
use std::fs;
use stepper::Machine;

/// Calls by function and number.
type Counts = [[usize; 16]; 8];
/// The bytes of the arrays that the lent buffers are the beginnings of.
const ARRAY: usize = 65_600;

struct Reader<'a>(&'a [u8]);

impl<'a> Reader<'a> {
    fn bytes(&mut self, count: usize) -> &'a [u8] {
        let (first, rest) = self.0.split_at(count);
        self.0 = rest;
        first
    }

    fn number(&mut self, bytes: usize) -> usize {
        self.bytes(bytes)
            .iter()
            .rev()
            .fold(0, |number, &byte| number * 256 + usize::from(byte))
    }

    /// Changes the array.
    fn changes(&mut self, array: &mut [u8]) {
        let mut place = 0;
        for _ in 0..self.number(2) {
            place += self.number(1);
            array[place] = self.number(1) as u8;
        }
    }
}

/// The head of a call.
struct Head {
    function: usize,
    index: usize,
    room: usize,
    old: u8,
    answer: Answer,
    more: usize,
}

impl Head {
    fn read(reader: &mut Reader) -> Head {
        let (function, index) = (reader.number(1), reader.number(8));
        let (room, old) = (reader.number(4), reader.number(1) as u8);
        let (number, length) = (reader.number(1) as u8, reader.number(2));
        let more = reader.number(2);
        let max_id = reader.number(4) as u32;
        Head {
            function,
            index,
            room,
            old,
            answer: Answer {
                number,
                length,
                max_id,
            },
            more,
        }
    }
}

/// Reads the file and replays each call; the images and the calls.
fn replay(file: &[u8]) -> (usize, Counts) {
    let (mut images, mut counts) = (0, [[0; 16]; 8]);
    let mut reader = Reader(file);
    for list in 0..2 {
        let count = reader.number(4);
        images += count;
        for _ in 0..count {
            let length = reader.number(4);
            let image = reader.bytes(length);
            let mut array = vec![0; ARRAY];
            for _ in 0..reader.number(1) {
                let head = Head::read(&mut reader);
                assert_eq!(list == 0, head.function < 4);
                match list {
                    0 => replay_call(&mut reader, image, &head),
                    _ => replay_step(&mut reader, image, &head, &mut array),
                }
                counts[head.function][usize::from(head.answer.number)] += 1;
            }
        }
    }
    assert!(reader.0.is_empty());
    (images, counts)
}

fn replay_call(reader: &mut Reader, image: &[u8], head: &Head) {
    assert_eq!(head.more, 0);
    let mut out = vec![head.old; head.room];
    let mut left = out.clone();
    match head.answer.number {
        11 | 12 => left.fill(0),
        _ => left[..head.answer.length].copy_from_slice(reader.bytes(head.answer.length)),
    }
    let answer = match head.function {
        0 => calls::read(image),
        1 => calls::check(image),
        2 => calls::linearize(image, &mut out),
        _ => calls::annotate(image, head.index, &mut out),
    };
    assert_eq!((answer, &out), (head.answer, &left));
}

/// The array is as the call before left it, and then as this one must leave it.
fn replay_step(reader: &mut Reader, image: &[u8], head: &Head, array: &mut [u8]) {
    let shown = reader.bytes(head.answer.length);
    let mut rest = Reader(reader.bytes(head.more));
    let mut events = vec![head.old; rest.number(2)];
    let length = rest.number(2);
    let values = rest.bytes(length);
    let starts = head.function % 2 == 0;
    if starts {
        array.fill(head.old);
    }
    rest.changes(array);
    let mut before = array.to_vec();
    rest.changes(array);
    assert!(rest.0.is_empty() && head.room <= vectors::LARGEST_ROOM);

    let machine = [Machine::Source, Machine::Linear][(head.function - 4) / 2];
    let store = &mut before[..head.room];
    let mut events_left = events.clone();
    events_left[..shown.len()].copy_from_slice(shown);
    let (number, made, length) = if starts {
        let number = stepper::start(machine, image, head.index, values, store);
        (number, 0, 0)
    } else {
        let steps = head.index as u64;
        let answer = stepper::step(machine, image, steps, store, &mut events);
        (answer.number, answer.made, answer.length)
    };
    let expected = (head.answer.number, head.answer.max_id.into(), shown.len());
    assert_eq!((number, made, length), expected);
    assert!(before == array && events == events_left);
}

#[test]
fn the_sample_replays_and_covers_every_answer() {
    let (sample, sessions) = (vectors::sample(), vectors::sessions());
    assert!(sample.len() >= 2_000);
    for vector in &sample {
        assert!(vector.image.len() <= vectors::LARGEST_ROOM);
        assert!(
            vector
                .calls
                .iter()
                .all(|call| call.room() <= vectors::LARGEST_ROOM)
        );
    }
    let file = vectors::file(&sample, &sessions);
    assert!(file.len() < 2_700_000, "{}", file.len());
    assert_eq!(
        file,
        vectors::file(&vectors::sample(), &vectors::sessions())
    );

    let (images, counts) = replay(&file);
    println!("{} bytes, {images} images, {counts:?}", file.len());
    let asked: [&[usize]; 8] = [
        &[0, 1, 2, 3, 4, 5],
        &[0, 1, 2, 3, 4, 5, 6, 7, 8, 9, 10],
        &[0, 1, 2, 3, 4, 5, 6, 7, 8, 9, 10, 11, 12],
        &[0, 1, 2, 3, 4, 5, 6, 7, 12, 13],
        &[0, 1, 2, 3, 4, 5, 6, 7, 8, 9, 10, 14, 15],
        &[0, 1, 2, 3, 4, 5, 6, 7, 8, 9, 10, 14, 15],
        &[0, 1, 2, 3, 4, 5, 14, 15],
        &[0, 1, 2, 3, 4, 5, 14, 15],
    ];
    for (function, numbers) in asked.iter().enumerate() {
        let least = if function < 4 { 20 } else { 8 };
        for (number, &found) in counts[function].iter().enumerate() {
            assert_eq!(numbers.contains(&number), found > 0, "{function} {number}");
            assert!(found == 0 || found >= least, "{function} {number}: {found}");
        }
    }
}

/// Whether a record of that kind byte stands in the directory, where it tiles.
fn holds(image: &[u8], kind: u8) -> bool {
    let field = |at: usize| usize::from(u16::from_le_bytes([image[at], image[at + 1]]));
    let mut records = 0..field(6);
    records.any(|record| image[field(8 + 4 * record)] == kind)
}

/// The numbers from 4 on, before which the records are not looked at, and 0: each function answers
/// images with a PrintI64, and images with an Exit, with every one that it has.
#[test]
fn both_kinds_of_output_have_every_answer() {
    let asked: [&[u8]; 4] = [
        &[0, 4, 5],
        &[0, 4, 5, 6, 7, 8, 9, 10],
        &[0, 4, 5, 6, 7, 8, 9, 10, 11, 12],
        &[0, 4, 5, 6, 7, 12, 13],
    ];
    for kind in [12, 13] {
        let mut counts = [[0; 14]; 4];
        for vector in vectors::sample() {
            let oracle = Oracle::new(&vector.image);
            for &call in &vector.calls {
                let number = call.ask(&oracle, &mut vec![0; call.room()]).number;
                if !(1..4).contains(&number) && holds(&vector.image, kind) {
                    counts[function(call)][usize::from(number)] += 1;
                }
            }
        }
        println!("kind {kind}: {counts:?}");
        for (numbers, counts) in asked.iter().zip(counts) {
            for &number in *numbers {
                assert!(counts[usize::from(number)] >= 5, "kind {kind}, {number}");
            }
        }
    }
}

fn function(call: Call) -> usize {
    match call {
        Call::Read => 0,
        Call::Check => 1,
        Call::Linearize { .. } => 2,
        Call::Annotate { .. } => 3,
    }
}

/// The crate `try_vectors` replays the file, and prints the summary, that are made now.
#[test]
fn the_stored_files_are_those_made_now() {
    let stored = |name: &str| fs::read(format!("../../crates/try_vectors/{name}")).expect(name);
    let (sample, sessions) = (vectors::sample(), vectors::sessions());
    assert!(
        stored("stdin") == vectors::file(&sample, &sessions),
        "stdin"
    );
    assert!(
        stored("stdout") == vectors::summary(&sample, &sessions).into_bytes(),
        "stdout"
    );
}

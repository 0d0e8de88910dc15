//! Damaged copies meet every question, and what a call leaves in its buffer is as document 01 says.

use generators::{Rng, damage, wild};
use reference::oracle::{Answer, Oracle};

#[test]
fn damage_meets_every_question() {
    let mut read = [0; 14];
    let mut check = [0; 14];
    let mut linearize = [0; 14];
    for index in 0..20_000 {
        let mut rng = Rng::of_case(10, index);
        let prog = wild::program(&mut rng);
        let image = damage::image(&mut rng, &prog);
        let oracle = Oracle::new(&image);
        let room = oracle.needed().map_or(20, |needed| needed - rng.below(2));
        read[usize::from(oracle.read().number)] += 1;
        check[usize::from(oracle.check().number)] += 1;
        let answer = oracle.linearize(&mut vec![0; room]);
        linearize[usize::from(answer.number)] += 1;
    }
    println!("read {read:?}\ncheck {check:?}\nlinearize {linearize:?}");
    assert!(linearize[..13].iter().all(|&count| count > 50));
    // what reading and the scope check do not ask
    assert!(read[6..].iter().all(|&count| count == 0));
    assert!(check[11..].iter().all(|&count| count == 0));
    // a no to an earlier question is the same no to every call
    assert_eq!(read[1..6], check[1..6]);
    assert_eq!(check[1..11], linearize[1..11]);
}

fn reports(answer: Answer, out: &[u8], old: u8) {
    match answer.number {
        0 => assert!(out[answer.length..].iter().all(|&byte| byte == old)),
        11 | 12 => assert!(out.iter().all(|&byte| byte == 0)),
        _ => assert!(out.iter().all(|&byte| byte == old)),
    }
    if answer.number != 0 {
        assert_eq!((answer.length, answer.max_id), (0, 0));
    }
}

#[test]
fn buffers_are_left_as_the_number_says() {
    for index in 0..5_000 {
        let mut rng = Rng::of_case(11, index);
        let prog = wild::program(&mut rng);
        let image = damage::image(&mut rng, &prog);
        let oracle = Oracle::new(&image);
        let needed = oracle.needed().unwrap_or(20);
        for room in [0, 1, needed - 1, needed, needed + 9] {
            let mut out = vec![0xA5; room];
            reports(oracle.linearize(&mut out), &out, 0xA5);
            let mut out = vec![0x5A; room];
            reports(oracle.annotate(rng.below(20), &mut out), &out, 0x5A);
        }
    }
}

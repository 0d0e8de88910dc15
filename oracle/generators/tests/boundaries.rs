//! Every boundary of document 01 on both sides.

use generators::boundaries;
use reference::oracle::Oracle;

#[test]
fn every_boundary_has_its_number() {
    let all = boundaries::all();
    let mut numbers = [0; 14];
    for boundary in &all {
        let oracle = Oracle::new(&boundary.image);
        let mut out = vec![0xA5; boundary.call.room()];
        let answer = boundary.call.ask(&oracle, &mut out);
        assert_eq!(
            answer.number, boundary.number,
            "{} ({:?})",
            boundary.what, boundary.call
        );
        numbers[usize::from(answer.number)] += 1;
    }
    println!("boundaries by number: {numbers:?}");
    assert!(numbers.iter().all(|&count| count > 0));
}

//! The changes of one byte: all kinds are in their images, and they meet many questions.

use generators::changes::Changes;
use reference::image::Frame;
use reference::oracle::Oracle;

use std::collections::BTreeSet;

#[test]
fn every_kind_is_changed() {
    let changes = Changes::new();
    assert_eq!(changes.image(changes.count()), None);
    let mut kinds = BTreeSet::new();
    let mut numbers = [0; 14];
    for number in 0..changes.count() {
        let image = changes.image(number).expect("below the count");
        if let Ok(frame) = Frame::read(&image) {
            kinds.extend(frame.records.iter().map(|record| record.kind()));
        }
        numbers[usize::from(Oracle::new(&image).check().number)] += 1;
    }
    println!("{} images, {numbers:?}", changes.count());
    assert!(kinds.into_iter().eq(1..=13));
    assert!(
        [0, 2, 3, 4, 5, 6, 8, 9, 10]
            .iter()
            .all(|&at| numbers[at] > 20)
    );
}

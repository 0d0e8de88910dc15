//! What a step that binds a variable writes in this layout, and nothing else: the entries move up by a
//! slot, a slot comes before them, the event, and the fields of the header that change. Nothing is read of
//! an image and nothing is looked up.

use std::hint::black_box;
use std::time::Instant;

use crate::rounds::WARM_UP;

const HEADER: usize = 64;
const SLOT: usize = 16;
const STEPS: usize = 3_000;

/// ns for each step with so many entries: the least of the rounds.
pub fn per_step(entries: usize, rounds: usize) -> f64 {
    let mut store = vec![0; HEADER + SLOT * (entries + 1)];
    let mut events = vec![0; SLOT * STEPS];
    let all = (0..WARM_UP + rounds).map(|_| {
        let begun = Instant::now();
        for (step, event) in events.chunks_exact_mut(SLOT).enumerate() {
            write(black_box(&mut store), black_box(event), step as u64);
        }
        begun.elapsed().as_nanos() as u64
    });
    let least = all.skip(WARM_UP).min().expect("one round or more");
    least as f64 / STEPS as f64
}

fn write(store: &mut [u8], event: &mut [u8], step: u64) {
    let entries = store.len() - HEADER - SLOT;
    store.copy_within(HEADER..HEADER + entries, HEADER + SLOT);
    let slot = u128::from(step).to_le_bytes();
    store[HEADER..HEADER + SLOT].copy_from_slice(&slot);
    store[..8].copy_from_slice(&step.to_le_bytes());
    store[24..32].copy_from_slice(&step.to_le_bytes());
    event.copy_from_slice(&slot);
}

#[cfg(test)]
mod tests {
    use super::*;

    #[test]
    fn the_entries_move_up_and_the_new_one_is_before_them() {
        let mut store = vec![0; HEADER + 3 * SLOT];
        store[HEADER..HEADER + 2 * SLOT].fill(7);
        let mut event = [0; SLOT];
        write(&mut store, &mut event, 5);
        assert_eq!(store[HEADER], 5);
        assert!(store[HEADER + SLOT..].iter().all(|&byte| byte == 7));
        assert_eq!((store[0], store[24], event[0]), (5, 5, 5));
    }
}

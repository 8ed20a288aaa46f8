//! The work of crates/bench_queue in plain Rust: std's `BinaryHeap` twice, over the entries that wait, with a mark for each number that was drawn.

use std::cmp::Reverse;
use std::collections::BinaryHeap;

const ENTRIES: u64 = 1_000_000;

#[derive(Default)]
struct Passive {
    lightest: BinaryHeap<Reverse<(u32, u64)>>,
    earliest: BinaryHeap<Reverse<u64>>,
    drawn: Vec<bool>,
    draws: u8,
}

impl Passive {
    // numbers come in order, from 0
    fn add(&mut self, weight: u32, number: u64) {
        self.lightest.push(Reverse((weight, number)));
        self.earliest.push(Reverse(number));
        self.drawn.push(false);
    }

    fn draw(&mut self) -> Option<u64> {
        loop {
            let number = if self.draws == 4 {
                self.earliest.pop()?.0
            } else {
                self.lightest.pop()?.0.1
            };
            if !self.drawn[number as usize] {
                self.drawn[number as usize] = true;
                self.draws = (self.draws + 1) % 5;
                return Some(number);
            }
        }
    }
}

fn scrambled(seed: u64) -> u64 {
    seed.wrapping_mul(6364136223846793005)
        .wrapping_add(1442695040888963407)
}

fn main() {
    let mut queue = Passive::default();
    let mut seed = 1;
    let mut sum: u64 = 0;
    for number in 0..ENTRIES {
        seed = scrambled(seed);
        queue.add((seed >> 33) as u32 % 200, number);
        if number % 4 == 3
            && let Some(drawn) = queue.draw()
        {
            sum = sum.wrapping_mul(31).wrapping_add(drawn);
        }
    }
    for _ in 0..ENTRIES {
        if let Some(drawn) = queue.draw() {
            sum = sum.wrapping_mul(31).wrapping_add(drawn);
        }
    }
    println!("{sum}");
}

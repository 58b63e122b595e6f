// The loop of the program `pace` in plain Rust: the same measures by hand.
// Built with `--cfg capped`, fields stay at the end of their types as the proved ones do; else they are added to with no cap.
use std::cmp::Ordering;
use std::io;
use std::time::Instant;

const MOVES: usize = 6000;

trait Measure {
    type Cost: Copy;
    const LETTER: char;
    fn start(&self) -> Self::Cost;
    fn push(&self, cost: &mut Self::Cost, by: u8);
    fn compare(&self, one: &Self::Cost, other: &Self::Cost) -> Ordering;
    fn first(&self, cost: &Self::Cost) -> u32;
}

fn plus(field: u32, more: u32) -> u32 {
    if cfg!(capped) {
        field.saturating_add(more)
    } else {
        field.wrapping_add(more)
    }
}

fn one_more(field: u16) -> u16 {
    if cfg!(capped) {
        field.saturating_add(1)
    } else {
        field.wrapping_add(1)
    }
}

#[derive(Clone, Copy)]
struct SumCost {
    sum: u32,
    moves: u16,
}

#[derive(Clone, Copy)]
struct LargestCost {
    size: u8,
    moves: u16,
}

#[derive(Clone, Copy)]
struct TableCost {
    counts: [u16; 24],
    moves: u16,
}

struct Sum;
struct Squares;
struct Largest;
struct CountTable;
struct Pair<A, B>(A, B);

impl Measure for Sum {
    type Cost = SumCost;
    const LETTER: char = 'S';
    fn start(&self) -> SumCost {
        SumCost { sum: 0, moves: 0 }
    }
    fn push(&self, cost: &mut SumCost, by: u8) {
        cost.sum = plus(cost.sum, by as u32);
        cost.moves = one_more(cost.moves);
    }
    fn compare(&self, one: &SumCost, other: &SumCost) -> Ordering {
        one.sum.cmp(&other.sum)
    }
    fn first(&self, cost: &SumCost) -> u32 {
        cost.sum
    }
}

impl Measure for Squares {
    type Cost = SumCost;
    const LETTER: char = 'Q';
    fn start(&self) -> SumCost {
        SumCost { sum: 0, moves: 0 }
    }
    fn push(&self, cost: &mut SumCost, by: u8) {
        cost.sum = plus(cost.sum, by as u32 * by as u32);
        cost.moves = one_more(cost.moves);
    }
    fn compare(&self, one: &SumCost, other: &SumCost) -> Ordering {
        one.sum.cmp(&other.sum)
    }
    fn first(&self, cost: &SumCost) -> u32 {
        cost.sum
    }
}

impl Measure for Largest {
    type Cost = LargestCost;
    const LETTER: char = 'L';
    fn start(&self) -> LargestCost {
        LargestCost { size: 0, moves: 0 }
    }
    fn push(&self, cost: &mut LargestCost, by: u8) {
        cost.size = cost.size.max(by);
        cost.moves = one_more(cost.moves);
    }
    fn compare(&self, one: &LargestCost, other: &LargestCost) -> Ordering {
        one.size.cmp(&other.size)
    }
    fn first(&self, cost: &LargestCost) -> u32 {
        cost.size as u32
    }
}

impl Measure for CountTable {
    type Cost = TableCost;
    const LETTER: char = 'M';
    fn start(&self) -> TableCost {
        TableCost {
            counts: [0; 24],
            moves: 0,
        }
    }
    fn push(&self, cost: &mut TableCost, by: u8) {
        if by > 0 {
            let at = 24 - by as usize;
            cost.counts[at] = one_more(cost.counts[at]);
        }
        cost.moves = one_more(cost.moves);
    }
    fn compare(&self, one: &TableCost, other: &TableCost) -> Ordering {
        one.counts.cmp(&other.counts)
    }
    fn first(&self, cost: &TableCost) -> u32 {
        cost.counts[0] as u32
    }
}

impl<A: Measure, B: Measure> Measure for Pair<A, B> {
    type Cost = (A::Cost, B::Cost);
    const LETTER: char = 'P';
    fn start(&self) -> Self::Cost {
        (self.0.start(), self.1.start())
    }
    fn push(&self, cost: &mut Self::Cost, by: u8) {
        self.0.push(&mut cost.0, by);
        self.1.push(&mut cost.1, by);
    }
    fn compare(&self, one: &Self::Cost, other: &Self::Cost) -> Ordering {
        self.0
            .compare(&one.0, &other.0)
            .then_with(|| self.1.compare(&one.1, &other.1))
    }
    fn first(&self, cost: &Self::Cost) -> u32 {
        self.0.first(&cost.0)
    }
}

fn keep<M: Measure>(measure: &M, best: &mut M::Cost, cost: &M::Cost) {
    if measure.compare(cost, best) == Ordering::Less {
        *best = *cost;
    }
}

fn least<M: Measure>(measure: &M, moves: &[u8], rounds: usize) -> M::Cost {
    let mut best = measure.start();
    for _ in 0..24 {
        measure.push(&mut best, 24);
    }
    let mut so_far = measure.start();
    for _ in 0..rounds {
        for six in moves.chunks(6) {
            let mut cost = so_far;
            for by in six {
                measure.push(&mut cost, *by);
            }
            keep(measure, &mut best, &cost);
        }
        so_far = best;
    }
    best
}

fn time<M: Measure>(measure: &M, moves: &[u8], rounds: usize) {
    let start = Instant::now();
    let best = least(measure, moves, rounds);
    let micros = start.elapsed().as_micros();
    println!("{} {} {}", M::LETTER, micros, measure.first(&best));
}

fn main() {
    let mut text = String::new();
    io::stdin().read_line(&mut text).expect("input");
    let Ok(rounds) = text.trim().parse::<usize>() else {
        return;
    };
    let mut moves = [24u8; MOVES];
    let mut seed: u32 = 1;
    for slot in moves.iter_mut() {
        seed = seed.wrapping_mul(1103515245).wrapping_add(12345);
        *slot = ((seed / 65536) % 13) as u8;
    }
    time(&Sum, &moves, rounds);
    time(&Squares, &moves, rounds);
    time(&Largest, &moves, rounds);
    time(&CountTable, &moves, rounds);
    time(&Pair(Sum, Largest), &moves, rounds);
}

//! Makes a case that disagrees smaller and plainer, as long as it still disagrees.

mod calls;
mod cost;
mod lent;

use crate::case::Case;
use crate::fields;
use crate::sides::run;
use cost::cost;
use interface::Board;
use std::time::{Duration, Instant};

/// How long smaller cases are tried.
const PATIENCE: Duration = Duration::from_secs(2);
/// What an outcome other than 0 costs: more than an end word.
const REFUSED: u64 = 48;

pub fn shrink(case: Case, bench: &Board) -> Case {
    let end = Instant::now() + PATIENCE;
    let mut shrinker = Shrinker { case, cost: u64::MAX, bench, end };
    shrinker.attempt(|_| {});
    shrinker.last_call_alone();
    shrinker.attempt(|case| case.address = 0);
    loop {
        let before = shrinker.cost;
        shrinker.plainer_board();
        shrinker.each_lent(Shrinker::join_tags);
        shrinker.each_lent(Shrinker::clear_words);
        shrinker.drop_calls();
        shrinker.each_lent(Shrinker::cut_words);
        shrinker.each_lent(Shrinker::cut_tails);
        shrinker.each_lent(Shrinker::add_end);
        shrinker.each_lent(Shrinker::shorten_values);
        shrinker.each_lent(Shrinker::plainer_words);
        shrinker.plainer_calls();
        if shrinker.cost == before {
            return shrinker.case;
        }
    }
}

struct Shrinker<'b> {
    case: Case,
    cost: u64,
    bench: &'b Board,
    end: Instant,
}

impl Shrinker<'_> {
    /// Takes the changed case where it is plainer and still disagrees.
    fn attempt(&mut self, change: impl FnOnce(&mut Case)) -> bool {
        if Instant::now() > self.end {
            return false;
        }
        let mut changed = self.case.clone();
        change(&mut changed);
        let mut cost = cost(&changed, self.bench);
        if cost >= self.cost {
            return false;
        }
        let Some(disagreement) = run(&changed, None) else { return false };
        if disagreement.rules.numbers[0] != 0 {
            cost += REFUSED;
        }
        if cost >= self.cost {
            return false;
        }
        (self.case, self.cost) = (changed, cost);
        true
    }

    fn plainer_board(&mut self) {
        let bench = *self.bench;
        let parts: [fn(&mut Board, &Board); 9] = [
            |board, bench| *board = *bench,
            |board, bench| board.facts = bench.facts,
            |board, bench| board.line = bench.line,
            |board, bench| board.devices = bench.devices,
            |board, bench| board.clocks = bench.clocks,
            |board, bench| board.voltages = bench.voltages,
            // Each of the two alone may lay the heap over the region.
            |board, bench| {
                (board.display, board.heap, board.blocks) =
                    (bench.display, bench.heap, bench.blocks);
            },
            |board, bench| board.display = bench.display,
            |board, bench| (board.heap, board.blocks) = (bench.heap, bench.blocks),
        ];
        for part in parts {
            self.attempt(|case| part(&mut case.board, &bench));
        }
        for place in 0..bench.blocks.len() {
            self.attempt(|case| case.board.blocks[place] = bench.blocks[place]);
        }
        for (index, (_, plain)) in fields::values(&bench).into_iter().enumerate() {
            let (_, now) = fields::values(&self.case.board)[index];
            if now == plain {
                continue;
            }
            for value in [plain, 0, 1, 32, now & 0xFF, now & 0xFFFF, now & !0xFF, now & !0xFFFF] {
                self.attempt(|case| fields::set(&mut case.board, index, value));
            }
        }
    }
}

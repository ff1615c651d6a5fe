//! Days of every size: any block powers that are allowed, made better by moving power from one block
//! to another until no such move is left.
//!
//! What is asked for is a flow from one source through the sets into the blocks, at least cost,
//! where a kW of a block costs its price, and less by an amount that is as nothing beside a grain and
//! everything beside that of the next block in merit order. A flow costs least when no cycle of what
//! is left to flow costs less than nothing, and a cycle of this network is a move from one block to
//! another. A move makes a flow cheaper exactly where it goes to an earlier block in merit order. So
//! when no such move is left the flow is the cheapest, ties included, and there is no other.

use super::Task;

/// The cheapest block powers of a task, in merit order, or none.
pub fn cheapest(task: &Task) -> Option<Vec<i128>> {
    let mut flow = Flow::any(task)?;
    while flow.improve() {}
    Some(flow.blocks)
}

/// Block powers that a task allows.
struct Flow<'a> {
    task: &'a Task,
    /// In merit order.
    blocks: Vec<i128>,
    /// Of each set, in the order named.
    sets: Vec<i128>,
}

impl Flow<'_> {
    /// Some block powers that the task allows: the floors, then from the last block in merit order on
    /// what each set needs at least, then what is left of the target.
    fn any(task: &Task) -> Option<Flow<'_>> {
        let floors: Vec<i128> = task.blocks.iter().map(|block| block.floor).collect();
        let mut flow = Flow {
            task,
            sets: task.powers(&floors),
            blocks: floors,
        };
        for place in (0..task.blocks.len()).rev() {
            let owner = task.blocks[place].owner;
            flow.raise(place, task.bounds[owner].0 - flow.sets[owner]);
        }
        for place in (0..task.blocks.len()).rev() {
            let owner = task.blocks[place].owner;
            let left = task.target - flow.sets.iter().sum::<i128>();
            flow.raise(place, left.min(task.bounds[owner].1 - flow.sets[owner]));
        }
        task.allows(&flow.blocks).then_some(flow)
    }

    /// Gives a block so much more, as far as its cap allows; nothing where that is below 0.
    fn raise(&mut self, place: usize, most: i128) {
        let block = &self.task.blocks[place];
        let more = most.min(block.cap - self.blocks[place]).max(0);
        self.blocks[place] += more;
        self.sets[block.owner] += more;
    }

    /// Tries every move to an earlier block once; whether any was made.
    fn improve(&mut self) -> bool {
        let mut is_better = false;
        for to in 0..self.blocks.len() {
            for from in (to + 1..self.blocks.len()).rev() {
                let most = self.movable(from, to);
                if most > 0 {
                    self.shift(from, to, most);
                    is_better = true;
                }
            }
        }
        is_better
    }

    /// How much can go from one block to another: between blocks of one set the set's power stays.
    fn movable(&self, from: usize, to: usize) -> i128 {
        let (giver, taker) = (&self.task.blocks[from], &self.task.blocks[to]);
        let blocks = (self.blocks[from] - giver.floor).min(taker.cap - self.blocks[to]);
        if giver.owner == taker.owner {
            return blocks;
        }
        let (low, _) = self.task.bounds[giver.owner];
        let (_, high) = self.task.bounds[taker.owner];
        blocks
            .min(self.sets[giver.owner] - low)
            .min(high - self.sets[taker.owner])
    }

    fn shift(&mut self, from: usize, to: usize, amount: i128) {
        self.blocks[from] -= amount;
        self.blocks[to] += amount;
        self.sets[self.task.blocks[from].owner] -= amount;
        self.sets[self.task.blocks[to].owner] += amount;
    }
}

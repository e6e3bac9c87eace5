//! Demand 3 of one run, and what document 01 says beside it of moves, end word and dropping.
use crate::answer::{Answer, End};
use crate::instance::{Instance, Lists};
use crate::moves::{chain_ends, settled, Engine, Reached};

/// A run and what it starts from: within a list, that list alone.
pub struct Started<'a> {
    pub instance: &'a Instance<'a>,
    pub engine: Engine,
    pub limit: u64,
    pub lent: &'a Lists,
}

/// The lists as they are handed back: with two or more, the empty ones dropped in order.
pub fn dropped(engine: Engine, lists: &Lists) -> Lists {
    if engine.within_a_list() || lists.len() < 2 {
        return lists.clone();
    }
    lists.iter().filter(|list| !list.is_empty()).cloned().collect()
}

fn offices(lists: &Lists) -> Vec<u16> {
    let mut offices = lists.concat();
    offices.sort_unstable();
    offices
}

impl Started<'_> {
    /// What is wrong with the answer; else the ends of its chains before the dropping.
    pub fn checked(&self, answer: &Answer, reached: &Reached) -> Result<Vec<Lists>, &'static str> {
        self.counted(answer)?;
        self.ended(answer)?;
        self.chained(answer, reached)
    }

    fn counted(&self, answer: &Answer) -> Result<(), &'static str> {
        let instance = self.instance;
        if offices(self.lent) != offices(&answer.lists) {
            return Err("not exactly the offices lent, each once");
        }
        if answer.lists.len() != answer.count || dropped(self.engine, &answer.lists) != answer.lists {
            return Err("not as many lists as said, or an empty one not dropped");
        }
        if instance.sum(self.lent) < instance.sum(&answer.lists) + answer.moves {
            return Err("the sum at the start is below the sum handed back plus the moves");
        }
        if let Some(distance) = answer.distance {
            let own: u64 = answer.lists.iter().map(|list| instance.distance(list)).sum();
            if distance.to_bits() != (own as f64).to_bits() {
                return Err("the distance isn't the list's");
            }
        }
        if !self.loads_may_hold(&answer.lists) {
            return Err("a list within capacity at the start is over it");
        }
        let parts = |list: &Vec<u16>| instance.passes(list) != instance.passes_rounded(list);
        if answer.lists.iter().any(parts) {
            return Err("this program's two readings of 'passes' part");
        }
        Ok(())
    }

    /// Whether the lists handed back, in order, can stand under numbers so that none within capacity at the start is over it.
    fn loads_may_hold(&self, handed_back: &Lists) -> bool {
        let within = |list: &Vec<u16>| self.instance.within_capacity(list);
        let mut lent = self.lent.iter();
        handed_back.iter().all(|list| lent.any(|at_start| within(list) || !within(at_start)))
    }

    /// Whether no list within capacity at the start is over it, number by number.
    fn loads_hold(&self, lists: &Lists) -> bool {
        let within = |list: &Vec<u16>| self.instance.within_capacity(list);
        self.lent.iter().zip(lists).all(|(at_start, list)| within(list) || !within(at_start))
    }

    fn ended(&self, answer: &Answer) -> Result<(), &'static str> {
        if answer.moves > self.limit {
            return Err("more moves than the limit");
        }
        match answer.end {
            End::Stopped if answer.moves != self.limit => Err("stopped below the limit"),
            End::Stopped if self.limit >= self.instance.sum(self.lent) => Err("stopped, with a limit no less than the starting sum"),
            End::Settled if !settled(self.instance, self.engine, &answer.lists) => {
                Err("settled, but a permitted move on the lists handed back lowers the sum")
            }
            _ => Ok(()),
        }
    }

    /// The ends of the chains that lead to the lists handed back and agree with loads and end word.
    fn chained(&self, answer: &Answer, reached: &Reached) -> Result<Vec<Lists>, &'static str> {
        let sum = self.instance.sum(&answer.lists);
        let chains = |goal: &dyn Fn(&Lists) -> bool| chain_ends(self.instance, self.engine, reached, answer.moves, sum, goal);
        let same = |lists: &Lists| dropped(self.engine, lists) == answer.lists;
        let held = |lists: &Lists| same(lists) && self.loads_hold(lists);
        let ends = chains(&|lists| held(lists) && self.word_holds(answer, lists));
        if !ends.is_empty() {
            return Ok(ends);
        }
        if chains(&same).is_empty() {
            return Err("no chain of exactly that many permitted moves, each lowering the sum");
        }
        if chains(&held).is_empty() {
            return Err("before the dropping a list within capacity at the start is over it");
        }
        match answer.end {
            End::Settled => Err("settled, but a permitted move on the lists before the dropping lowers the sum"),
            End::Stopped => Err("stopped, but no permitted move lowers the sum"),
        }
    }

    /// Whether the end word is that of these lists before the dropping.
    fn word_holds(&self, answer: &Answer, lists: &Lists) -> bool {
        match answer.end {
            End::Settled => *lists == answer.lists || settled(self.instance, self.engine, lists),
            End::Stopped => !settled(self.instance, self.engine, lists),
        }
    }
}

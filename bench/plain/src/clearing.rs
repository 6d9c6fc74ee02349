//! Applicants propose down their lists; a pool over its quota lets its lowest group go.

use crate::instance::{Choice, Instance, Rule};
use std::cmp::Reverse;
use std::collections::BinaryHeap;

pub struct Outcome {
    pub limits: Vec<u32>,
    pub counts: Vec<u32>,
    /// The index of each applicant's admitted choice.
    pub admitted: Vec<Option<u32>>,
}

/// An applicant who is held in a pool by the choice at an index of their list.
#[derive(Clone, Copy, PartialEq, Eq, PartialOrd, Ord)]
struct Held {
    score: u32,
    applicant: u32,
    index: u32,
}

struct Round<'a> {
    instance: &'a Instance,
    /// Who is or was held in each pool, lowest first.
    heaps: Vec<BinaryHeap<Reverse<Held>>>,
    counts: Vec<u32>,
    /// No score below this is taken any more.
    bars: Vec<u32>,
    held: Vec<Option<u32>>,
    next: Vec<u32>,
    waiting: Vec<u32>,
}

impl Round<'_> {
    /// The lowest who is still held in a pool.
    fn lowest(&mut self, pool: usize) -> Option<Held> {
        while let Some(Reverse(lowest)) = self.heaps[pool].peek().copied() {
            if self.held[lowest.applicant as usize] == Some(lowest.index) {
                return Some(lowest);
            }
            self.heaps[pool].pop();
        }
        None
    }

    /// Takes all who are held in a pool with the lowest score out of its heap.
    fn take_lowest_group(&mut self, pool: usize) -> Vec<Held> {
        let mut group: Vec<Held> = Vec::new();
        while let Some(lowest) = self.lowest(pool) {
            if group.first().is_some_and(|first| first.score != lowest.score) {
                break;
            }
            self.heaps[pool].pop();
            group.push(lowest);
        }
        group
    }

    fn let_go(&mut self, gone: Held) {
        let choice = self.instance.list(gone.applicant as usize)[gone.index as usize];
        for pool in self.instance.outward(choice) {
            self.counts[pool] -= 1;
        }
        self.held[gone.applicant as usize] = None;
        self.next[gone.applicant as usize] = gone.index + 1;
        self.waiting.push(gone.applicant);
    }

    /// Lets the lowest groups of a pool go while it is over its quota.
    fn settle(&mut self, pool: usize) {
        let (quota, rule) = (self.instance.pools[pool].quota, self.instance.pools[pool].rule);
        while self.counts[pool] > quota {
            let group = self.take_lowest_group(pool);
            let Some(score) = group.first().map(|held| held.score) else {
                return;
            };
            if rule == Rule::L && self.counts[pool] - (group.len() as u32) < quota {
                self.heaps[pool].extend(group.into_iter().map(Reverse));
                self.bars[pool] = self.bars[pool].max(score);
                return;
            }
            self.bars[pool] = self.bars[pool].max(score + 1);
            group.into_iter().for_each(|held| self.let_go(held));
        }
    }

    fn may_come(&self, choice: Choice) -> bool {
        self.instance.outward(choice).all(|pool| choice.score >= self.bars[pool])
    }

    fn propose(&mut self, applicant: u32) {
        let instance = self.instance;
        let list = instance.list(applicant as usize);
        let from = self.next[applicant as usize] as usize;
        let found = (from..list.len()).find(|index| self.may_come(list[*index]));
        let Some(index) = found else {
            self.next[applicant as usize] = list.len() as u32;
            return;
        };
        let choice = list[index];
        let held = Held { score: choice.score, applicant, index: index as u32 };
        self.next[applicant as usize] = held.index;
        self.held[applicant as usize] = Some(held.index);
        for pool in instance.outward(choice) {
            self.heaps[pool].push(Reverse(held));
            self.counts[pool] += 1;
        }
        for pool in instance.outward(choice) {
            self.settle(pool);
        }
    }

    /// A full merit pool has its lowest merit as its limit, also where nobody was refused.
    fn own_limit(&mut self, pool: usize) -> u32 {
        let (quota, rule) = (self.instance.pools[pool].quota, self.instance.pools[pool].rule);
        match rule {
            Rule::H | Rule::L => self.bars[pool],
            Rule::Merit if self.counts[pool] == quota => self.lowest(pool).map_or(0, |held| held.score),
            Rule::Merit => 0,
        }
    }
}

pub fn clear(instance: &Instance) -> Outcome {
    let pools = instance.pools.len();
    let applicants = instance.applicants();
    let mut round = Round {
        instance,
        heaps: vec![BinaryHeap::new(); pools],
        counts: vec![0; pools],
        bars: vec![0; pools],
        held: vec![None; applicants],
        next: vec![0; applicants],
        waiting: (0..applicants as u32).rev().collect(),
    };
    while let Some(applicant) = round.waiting.pop() {
        round.propose(applicant);
    }
    let own: Vec<u32> = (0..pools).map(|pool| round.own_limit(pool)).collect();
    let round_of = |pool: &usize| instance.pools[*pool].parent.map(|parent| parent as usize);
    let effective = |pool| std::iter::successors(Some(pool), round_of).map(|pool| own[pool]).max().unwrap_or(0);
    Outcome { limits: (0..pools).map(effective).collect(), counts: round.counts, admitted: round.held }
}

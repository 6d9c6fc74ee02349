//! Pools, programmes and the applicants' lists, in flat vectors.

#[derive(Clone, Copy, PartialEq)]
pub enum Rule {
    H,
    L,
    Merit,
}

pub struct Pool {
    pub quota: u32,
    pub parent: Option<u32>,
    pub rule: Rule,
}

#[derive(Clone, Copy)]
pub struct Choice {
    pub place: u32,
    pub programme: u32,
    pub score: u32,
}

pub struct Instance {
    pub pools: Vec<Pool>,
    /// The smallest pool of each programme.
    pub programmes: Vec<u32>,
    pub choices: Vec<Choice>,
    /// Where each applicant's list begins in `choices`, and where the last ends.
    pub starts: Vec<u32>,
}

impl Instance {
    pub fn applicants(&self) -> usize {
        self.starts.len() - 1
    }

    pub fn list(&self, applicant: usize) -> &[Choice] {
        &self.choices[self.starts[applicant] as usize..self.starts[applicant + 1] as usize]
    }

    /// A choice's smallest pool and the pools round it, from it outwards.
    pub fn outward(&self, choice: Choice) -> impl Iterator<Item = usize> + '_ {
        let first = self.programmes[choice.programme as usize];
        std::iter::successors(Some(first), |pool| self.pools[*pool as usize].parent).map(|pool| pool as usize)
    }
}

//! The generated round, as docs/FORMATS.md defines it, and the summary of its clearing.

use crate::clearing::Outcome;
use crate::instance::{Choice, Instance, Pool, Rule};
use std::io::{stdout, BufWriter, Write};

fn pool(number: u32) -> Pool {
    let group = number / 8 * 8;
    let (parent, rule) = match number % 8 {
        0 | 1 => (None, Rule::H),
        2 | 3 => (None, Rule::L),
        4 => (None, Rule::Merit),
        5 | 6 => (Some(group + 4), Rule::Merit),
        _ => (Some(group + 5), Rule::Merit),
    };
    Pool { quota: 1 + number * 29 % 60, parent, rule }
}

fn choice(pools: &[Pool], applicant: u32, index: u32) -> Choice {
    let programme = (applicant * 37 + index * 113 + applicant / 400 * 16) % (2 * pools.len() as u32);
    let score = if pools[programme as usize / 2].rule == Rule::Merit {
        1 + (u64::from(applicant) * 314_159 % 524_288) as u32
    } else {
        ((u64::from(applicant) * 7_919 + u64::from(programme) * 331) % 501) as u32
    };
    Choice { place: index + 1, programme, score }
}

pub fn generate(applicants: u32) -> Instance {
    let pools: Vec<Pool> = (0..8 * (1 + applicants / 400)).map(pool).collect();
    let mut choices = Vec::new();
    let mut starts = vec![0];
    for applicant in 0..applicants {
        choices.extend((0..1 + applicant % 6).map(|index| choice(&pools, applicant, index)));
        starts.push(choices.len() as u32);
    }
    let programmes = (0..2 * pools.len() as u32).map(|programme| programme / 2).collect();
    Instance { pools, programmes, choices, starts }
}

pub fn write(instance: &Instance, outcome: &Outcome) -> std::io::Result<()> {
    let places = outcome.admitted.iter().enumerate().filter_map(|(applicant, index)| {
        index.map(|index| u64::from(instance.list(applicant)[index as usize].place))
    });
    let (admitted, places) = places.fold((0u64, 0u64), |(count, sum), place| (count + 1, sum + place));
    let limits: u64 = outcome.limits.iter().map(|limit| u64::from(*limit)).sum();
    let mut out = BufWriter::new(stdout().lock());
    for (name, number) in [
        ("pools", instance.pools.len() as u64),
        ("applicants", instance.applicants() as u64),
        ("applications", instance.choices.len() as u64),
        ("admitted", admitted),
        ("limits", limits),
        ("places", places),
    ] {
        writeln!(out, "demo,{name},{number},")?;
    }
    writeln!(out, "end,6,,")?;
    out.flush()
}

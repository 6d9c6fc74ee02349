//! A yardstick for `scorelimits` without proofs: it clears the same tables to the same limits, counts and
//! admissions, by applicant-proposing deferred acceptance with a heap for each pool. It checks nothing of its
//! tables, and writes no list of raises. By rule L it counts an applicant out of a pool who comes back by a later
//! choice in the same one, so its limit can then be too low.
//!
//!     plain R pools.csv programmes.csv applications.csv
//!     plain demo N

mod clearing;
mod generated;
mod instance;
mod tables;

use clearing::Outcome;
use std::error::Error;
use std::io::{stdout, BufWriter};
use tables::Named;

fn write(named: &Named, outcome: &Outcome) -> Result<(), Box<dyn Error>> {
    let mut writer = csv::Writer::from_writer(BufWriter::new(stdout().lock()));
    for (pool, code) in named.pools.iter().enumerate() {
        let limit = outcome.limits[pool].to_string();
        let count = outcome.counts[pool].to_string();
        writer.write_record(["limit", code, &limit, &count])?;
    }
    for (applicant, code) in named.applicants.iter().enumerate() {
        let admitted = outcome.admitted[applicant].map(|index| named.instance.list(applicant)[index as usize]);
        match admitted {
            Some(choice) => {
                let place = choice.place.to_string();
                let programme = &named.programmes[choice.programme as usize];
                writer.write_record(["admit", code, &place, programme])?;
            }
            None => writer.write_record(["admit", code, "0", ""])?,
        }
    }
    writer.flush()?;
    Ok(())
}

fn main() -> Result<(), Box<dyn Error>> {
    let words: Vec<String> = std::env::args().skip(1).collect();
    match words.as_slice() {
        [demo, applicants] if demo == "demo" => {
            let instance = generated::generate(applicants.parse()?);
            generated::write(&instance, &clearing::clear(&instance))?;
            Ok(())
        }
        [letter, pools, programmes, applications] => {
            let named = tables::read(letter, pools, programmes, applications)?;
            write(&named, &clearing::clear(&named.instance))
        }
        _ => Err("plain R pools.csv programmes.csv applications.csv, or plain demo N".into()),
    }
}

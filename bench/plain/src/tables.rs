//! The three tables, read without a look at what may be wrong in them.

use crate::instance::{Choice, Instance, Pool, Rule};
use indexmap::IndexSet;
use std::error::Error;

pub struct Named {
    pub instance: Instance,
    pub pools: IndexSet<String>,
    pub programmes: IndexSet<String>,
    pub applicants: IndexSet<String>,
}

type Answer<T> = Result<T, Box<dyn Error>>;

fn each_row(path: &str, mut take: impl FnMut(&csv::StringRecord) -> Answer<()>) -> Answer<()> {
    let mut reader = csv::Reader::from_path(path)?;
    let mut row = csv::StringRecord::new();
    while reader.read_record(&mut row)? {
        take(&row)?;
    }
    Ok(())
}

fn number_of(codes: &IndexSet<String>, code: &str) -> Answer<u32> {
    let number = codes.get_index_of(code).ok_or_else(|| format!("{code}: unknown"))?;
    Ok(number as u32)
}

fn rule_of(kind: &str, letter: &str) -> Rule {
    match (kind, letter) {
        ("merit", _) => Rule::Merit,
        (_, "L") => Rule::L,
        _ => Rule::H,
    }
}

fn read_pools(path: &str, letter: &str) -> Answer<(IndexSet<String>, Vec<Pool>)> {
    let mut codes = IndexSet::new();
    let mut rows = Vec::new();
    each_row(path, |row| {
        codes.insert(row[0].to_string());
        rows.push((row[1].parse()?, row[2].to_string(), rule_of(&row[3], letter)));
        Ok(())
    })?;
    let mut pools = Vec::with_capacity(rows.len());
    for (quota, parent, rule) in rows {
        let parent = if parent.is_empty() { None } else { Some(number_of(&codes, &parent)?) };
        pools.push(Pool { quota, parent, rule });
    }
    Ok((codes, pools))
}

pub fn read(letter: &str, pools: &str, programmes: &str, applications: &str) -> Answer<Named> {
    let (pool_codes, pools) = read_pools(pools, letter)?;
    let mut programme_codes = IndexSet::new();
    let mut smallest = Vec::new();
    each_row(programmes, |row| {
        programme_codes.insert(row[0].to_string());
        smallest.push(number_of(&pool_codes, &row[1])?);
        Ok(())
    })?;
    let mut applicant_codes = IndexSet::<String>::new();
    let mut lists: Vec<Vec<Choice>> = Vec::new();
    each_row(applications, |row| {
        let applicant = match applicant_codes.get_index_of(&row[0]) {
            Some(known) => known,
            None => {
                lists.push(Vec::new());
                applicant_codes.insert_full(row[0].to_string()).0
            }
        };
        let programme = number_of(&programme_codes, &row[2])?;
        lists[applicant].push(Choice { place: row[1].parse()?, programme, score: row[3].parse()? });
        Ok(())
    })?;
    let mut starts = vec![0];
    let mut choices = Vec::new();
    for mut list in lists {
        list.sort_unstable_by_key(|choice| choice.place);
        choices.extend(list);
        starts.push(choices.len() as u32);
    }
    let instance = Instance { pools, programmes: smallest, choices, starts };
    Ok(Named { instance, pools: pool_codes, programmes: programme_codes, applicants: applicant_codes })
}

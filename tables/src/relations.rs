//! The relations of the kernels, read from their definition.
use crate::source::{Place, Sources};

/// The relations of one kernel: bit i of number s says that v i is among those whose sum is symbol s.
pub type Relations = [u16; 16];

/// Those of kernels 0, 1 and 2: the three clauses of `relations`.
pub fn read(sources: &Sources) -> Result<Vec<Relations>, String> {
    let body = sources.body(&Place::Definition("relations"))?;
    let clauses: Vec<&str> = body.split("relations ").skip(1).collect();
    if clauses.len() != 3 {
        return Err(format!("relations has {} clauses, not 3", clauses.len()));
    }
    clauses.into_iter().map(clause).collect()
}

/// A clause: after the equals sign sixteen lists in parentheses.
fn clause(text: &str) -> Result<Relations, String> {
    let (_, lists) = text
        .split_once('=')
        .ok_or("a clause of relations has no equals sign")?;
    let forms: Vec<u16> = lists
        .split('(')
        .skip(1)
        .map(|list| form(list.split(')').next().unwrap_or("")))
        .collect::<Result<_, _>>()?;
    let count = forms.len();
    forms
        .try_into()
        .map_err(|_| format!("a kernel has {count} relations, not 16"))
}

/// A relation, `5 ∷ 6 ∷ 10 ∷ []`.
fn form(list: &str) -> Result<u16, String> {
    list.split('∷')
        .map(str::trim)
        .filter(|&entry| entry != "[]")
        .try_fold(0, |form, entry| match entry.parse::<u32>() {
            Ok(i) if i < 16 => Ok(form ^ 1 << i),
            _ => Err(format!("relations: {entry:?} is not the number of a v")),
        })
}

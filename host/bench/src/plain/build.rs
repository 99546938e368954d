//! A policy built from a file, check by check, in the order in which a load checks.

use super::levels::{gather, put_levels};
use super::order::Dominance;
use super::read::{split_letter, Line, Part, LINE};
use super::{check, order, roleset, tables};
use super::{ASSIGNED, CARD_LABELS, CLEARANCES, SENIORS};
use crate::verdict::{refused, Verdict};

/// The four counts at the start of the state.
fn put_counts(state: &mut [u8], head: &Line) {
    for (bytes, count) in state
        .chunks_exact_mut(2)
        .zip([head.a, head.b, head.c, head.d])
    {
        bytes.copy_from_slice(&(count as u16).to_le_bytes());
    }
}

/// How many labels, roles, users and cards there are.
struct Counts {
    labels: usize,
    roles: usize,
    users: usize,
    cards: usize,
}

/// 6, with clearances and card labels put into the state.
fn note_labels(state: &mut [u8], n: &Counts, users: Part, cards: Part) -> Result<(), Verdict> {
    tables::note_labels(state, CLEARANCES, users);
    tables::note_labels(state, CARD_LABELS, cards);
    if let Some(user) = tables::lowest_unlabelled(state, CLEARANCES, n.users) {
        return Err(refused(6, 1, user));
    }
    if let Some(card) = tables::lowest_unlabelled(state, CARD_LABELS, n.cards) {
        return Err(refused(6, 2, card));
    }
    Ok(())
}

/// 11 and 12; dominance where there is nothing to refuse.
fn closed_dominance(lines: Part, labels: usize) -> Result<Dominance, Verdict> {
    let mut down = tables::dominance(lines);
    order::close(&mut down, labels);
    let label = order::lowest_loop(&down, labels);
    if label != 0 {
        return Err(refused(11, label, 0));
    }
    order::reflect(&mut down, labels);
    if let Some((lower, higher)) = order::first_pair(&down, labels) {
        return Err(refused(12, lower, higher));
    }
    let under = order::rows(&down, labels);
    let over = order::columns(&down, labels);
    Ok(Dominance { down, under, over })
}

/// 13, with the seniors of each role put into the state.
fn rank_roles(state: &mut [u8], lines: Part, roles: usize) -> Result<(), Verdict> {
    tables::note_seniors(state, lines);
    roleset::close(state, SENIORS, roles);
    let role = roleset::lowest_loop(state, SENIORS, roles);
    if role != 0 {
        return Err(refused(13, role, 0));
    }
    roleset::reflect(state, SENIORS, roles);
    Ok(())
}

/// Dominance, readers, writers and levels, put into the state.
fn grant_all(state: &mut [u8], n: &Counts, dominance: &Dominance, lines: Part) {
    tables::put_dominance(state, &dominance.down);
    tables::grant(state, lines);
    let gathered = gather(state, n.cards);
    put_levels(state, &gathered, dominance, n.labels, n.roles);
}

/// The whole check of a file, into a state of zeros.
pub fn build(file: &[u8], state: &mut [u8]) -> Result<(), Verdict> {
    let head = check::lines(file)?;
    let [labels, roles, users, cards] = [head.a, head.b, head.c, head.d].map(|n| n as usize);
    let n = Counts {
        labels,
        roles,
        users,
        cards,
    };
    let mut rest = &file[LINE..];
    let [d, s, u, o, p, a] = b"DSUOPA".map(|letter| split_letter(&mut rest, letter));
    note_labels(state, &n, u, o)?;
    let dominance = closed_dominance(d, labels)?;
    rank_roles(state, s, roles)?;
    grant_all(state, &n, &dominance, p);
    tables::judge_assignments(state.first_chunk().expect("a whole state"), &dominance, a)?;
    tables::note_assigned(state, ASSIGNED, a);
    put_counts(state, &head);
    Ok(())
}

//! The shares of answers in a stream.

use std::collections::BTreeMap;

use crate::answer::{answer, Answer, Case, Step};
use crate::refusal::Refusal;
use crate::session::Operation;

pub fn refusal_of(answer: &Answer) -> Option<Refusal> {
    match answer {
        Answer::PlanRefused { refusal, .. } | Answer::WriteRefused { refusal, .. } => Some(*refusal),
        Answer::BackupRefused { refusal, .. } => Some(*refusal),
        Answer::LocateRefused { refusal } | Answer::ReadRefused { refusal } => Some(*refusal),
        _ => None,
    }
}

/// The refusal's number, or a word for the acceptance.
pub fn label(answer: &Answer) -> String {
    if let Some(refusal) = refusal_of(answer) {
        return refusal.number.to_string();
    }
    if let Answer::Leaf { line } = answer {
        return line.split(' ').take(if line.starts_with("characters") { 2 } else { 1 }).collect::<Vec<_>>().join("-");
    }
    let word = match answer {
        Answer::Planned { .. } => "planned",
        Answer::Found { .. } => "found",
        Answer::Written { .. } => "written",
        Answer::Integer { .. } => "integer",
        Answer::Event { .. } => "event",
        Answer::Session { .. } => "session",
        Answer::Stored { .. } => "stored",
        Answer::Restored { .. } => "restored",
        _ => "text",
    };
    word.to_string()
}

pub fn kind_of(case: &Case) -> &'static str {
    match case {
        Case::Plan { .. } => "plan",
        Case::Locate { .. } => "locate",
        Case::Session { .. } => "session",
        Case::Store { .. } => "store",
        Case::Restore { .. } => "restore",
        Case::Leaf(_) => "leaf",
        _ => "access",
    }
}

/// The refusal's number for each operation of a session, or what was accepted.
pub fn operation_labels(operations: &[Operation], steps: &[Step]) -> Vec<String> {
    let told = |(operation, step): (&Operation, &Step)| match (step.outcome, operation) {
        (Err(refusal), _) => refusal.number.to_string(),
        (Ok(()), Operation::Edit { .. }) => "edit".to_string(),
        (Ok(()), Operation::Undo) => "undo".to_string(),
    };
    operations.iter().zip(steps).map(told).collect()
}

/// The answers to a case: those of its operations if it is a session, else the one.
fn labels(case: &Case) -> Vec<String> {
    match (case, answer(case)) {
        (Case::Session { operations, .. }, Answer::Session { steps, .. }) => operation_labels(operations, &steps),
        (_, answer) => vec![label(&answer)],
    }
}

/// How often each answer is given, by kind of case; of sessions each operation counts.
#[derive(Debug, Default)]
pub struct Shares {
    pub counts: BTreeMap<(&'static str, String), usize>,
}

impl Shares {
    pub fn add(&mut self, case: &Case) {
        for label in labels(case) {
            *self.counts.entry((kind_of(case), label)).or_default() += 1;
        }
    }

    pub fn total(&self, kind: &str) -> usize {
        self.counts.iter().filter(|((of, _), _)| *of == kind).map(|(_, count)| count).sum()
    }

    /// The share of an answer among the cases of its kind, in hundredths.
    pub fn percent(&self, kind: &'static str, label: &str) -> f64 {
        let count = self.counts.get(&(kind, label.to_string())).copied().unwrap_or(0);
        100.0 * count as f64 / self.total(kind).max(1) as f64
    }

    /// One line for each kind and answer: refusals by number, then acceptances.
    pub fn lines(&self) -> Vec<String> {
        let mut rows: Vec<_> = self.counts.iter().collect();
        rows.sort_by_key(|((kind, label), _)| (*kind, label.parse::<u32>().unwrap_or(100), label.clone()));
        rows.into_iter()
            .map(|((kind, label), count)| format!("{kind} {label} {count} {:.2} %", self.percent(kind, label)))
            .collect()
    }
}

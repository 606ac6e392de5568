//! Document 01, "The three events (001, section 3.5)": the events, the rules' names and the answer.

use crate::plot::Level;
use crate::refusal::Refusal;
use std::collections::BTreeSet;

/// The three events: up (01, 4.4), down (4.5), receipt (4.11).
#[derive(Clone, Copy, Debug, PartialEq, Eq)]
pub enum Event {
    Up { u: i64, v: i64 },
    Down { u: i64, v: i64 },
    Receipt { from: i64, to: i64 },
}

/// The rules named U, E, S, Q, I, F, P, A and R in "The three events".
#[derive(Clone, Copy, Debug, PartialEq, Eq, PartialOrd, Ord)]
pub enum Rule {
    U,
    E,
    S,
    Q,
    I,
    F,
    P,
    A,
    R,
}

/// 01, 4.25 and 4.26: number, rule and set, and what A and P carry. A refused one carries its number,
/// 2 and 18 also u and v.
#[derive(Clone, Debug, PartialEq, Eq)]
pub struct Answer {
    pub number: i64,
    pub fault: Option<(i64, i64)>,
    pub rule: Option<Rule>,
    pub sent_to: BTreeSet<i64>,
    pub adopted_from: Option<i64>,
    pub level_taken: Option<Level>,
}

impl Event {
    /// The two station numbers of the event, in the order written: "M u v" is from u to v.
    pub fn stations(self) -> (i64, i64) {
        match self {
            Event::Up { u, v } | Event::Down { u, v } => (u, v),
            Event::Receipt { from, to } => (from, to),
        }
    }

    /// The station whose clock the event moves (01, 3.1).
    pub fn at(self) -> i64 {
        match self {
            Event::Up { u, .. } | Event::Down { u, .. } => u,
            Event::Receipt { to, .. } => to,
        }
    }
}

impl Rule {
    /// The letter that document 01 names the rule by.
    pub fn letter(self) -> char {
        match self {
            Rule::U => 'U',
            Rule::E => 'E',
            Rule::S => 'S',
            Rule::Q => 'Q',
            Rule::I => 'I',
            Rule::F => 'F',
            Rule::P => 'P',
            Rule::A => 'A',
            Rule::R => 'R',
        }
    }
}

impl Answer {
    /// The answer to a refused event: its number, and for 2 (01, 5.4) and 18 the pair.
    pub fn refused(refusal: Refusal) -> Answer {
        Answer {
            number: refusal.number(),
            fault: refusal.pair(),
            rule: None,
            sent_to: BTreeSet::new(),
            adopted_from: None,
            level_taken: None,
        }
    }

    /// The rule's letter, or - (01, 8.10).
    pub fn letter(&self) -> char {
        self.rule.map_or('-', Rule::letter)
    }

    /// 01, 4.25: number 0, the rule and the set.
    pub(crate) fn accepted(rule: Rule, sent_to: BTreeSet<i64>) -> Answer {
        Answer {
            number: 0,
            fault: None,
            rule: Some(rule),
            sent_to,
            adopted_from: None,
            level_taken: None,
        }
    }
}

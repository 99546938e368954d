//! What the C functions hand back beside a number.

use second_checker::Outcome;

/// `struct monitor_verdict`: 0, or the number and its place.
#[repr(C)]
#[derive(Clone, Copy, Debug, Default, PartialEq, Eq)]
pub struct Verdict {
    pub number: u64,
    pub first: u64,
    pub second: u64,
}

impl Verdict {
    /// A refusal whose place is [0, 0].
    pub fn refused(number: u64) -> Verdict {
        Verdict {
            number,
            ..Verdict::default()
        }
    }

    /// What a load answers where the second checker comes to this.
    pub fn of(outcome: &Outcome) -> Verdict {
        let [first, second] = outcome.place();
        Verdict {
            number: outcome.number() as u64,
            first: first as u64,
            second: second as u64,
        }
    }
}

/// `struct monitor_figure`: figure is 0 on a refusal.
#[repr(C)]
#[derive(Clone, Copy, Debug, Default, PartialEq, Eq)]
pub struct Figure {
    pub number: u64,
    pub figure: u64,
}

impl Figure {
    pub fn refused(number: u64) -> Figure {
        Figure { number, figure: 0 }
    }
}

/// `struct monitor_counts`: all but the number are 0 on a refusal.
#[repr(C)]
#[derive(Clone, Copy, Debug, Default, PartialEq, Eq)]
pub struct CountsAnswer {
    pub number: u64,
    pub labels: u64,
    pub roles: u64,
    pub users: u64,
    pub cards: u64,
}

/// `struct monitor_session`: all but the number are 0 on a refusal.
#[repr(C)]
#[derive(Clone, Copy, Debug, Default, PartialEq, Eq)]
pub struct SessionAnswer {
    pub number: u64,
    pub user: u64,
    pub label: u64,
    pub low: u64,
    pub high: u64,
}

/// `struct monitor_set`: all but the number are 0 on a refusal.
#[repr(C)]
#[derive(Clone, Copy, Debug, Default, PartialEq, Eq)]
pub struct SetAnswer {
    pub number: u64,
    pub low: u64,
    pub high: u64,
}

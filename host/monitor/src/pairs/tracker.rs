//! Which places are open, and at which label. "So the file and the calls alone
//! tell": nothing here knows of a monitor, of the model or of an answer.

use crate::call::Call;
use second_checker::check::RoleFile;
use second_checker::order::Order;
use std::collections::BTreeMap;
use std::ops::Range;

const PLACES: u64 = 64;
const CARD_BYTES: usize = 64;

/// What a file says of labels.
pub struct Labels {
    count: usize,
    dominance: Order,
    /// U lines: of each user the clearance.
    clearances: BTreeMap<usize, usize>,
    /// O lines: of each card the label.
    cards: BTreeMap<usize, usize>,
}

impl Labels {
    pub fn of(file: &RoleFile) -> Labels {
        Labels {
            count: file.counts.labels,
            dominance: Order::closure(file.counts.labels, &file.dominance),
            clearances: file.clearances.iter().copied().collect(),
            cards: file.card_labels.iter().copied().collect(),
        }
    }

    /// "The cards under L are those whose label L dominates; of a store
    /// shorter than 64 × cards, the bytes it has of them."
    pub fn bytes_under(&self, label: usize, store: usize) -> Vec<Range<usize>> {
        self.cards
            .iter()
            .filter(|&(_, &card_label)| self.dominance.over(label, card_label))
            .map(|(&card, _)| CARD_BYTES * (card - 1)..CARD_BYTES * card)
            .map(|bytes| bytes.start.min(store)..bytes.end.min(store))
            .collect()
    }
}

/// Who opened a place, and the label that the opening named.
#[derive(Clone, Copy, Debug, PartialEq, Eq)]
pub struct Opened {
    pub user: usize,
    pub label: usize,
}

/// The open places after some calls of a run.
pub struct Tracker<'a> {
    labels: &'a Labels,
    open: BTreeMap<u64, Opened>,
}

impl Tracker<'_> {
    /// As a load leaves them: no place is open.
    pub fn new(labels: &Labels) -> Tracker<'_> {
        Tracker {
            labels,
            open: BTreeMap::new(),
        }
    }

    pub fn at(&self, place: u64) -> Option<Opened> {
        self.open.get(&place).copied()
    }

    pub fn open_places(&self) -> Vec<u64> {
        self.open.keys().copied().collect()
    }

    /// "A place is open from an opening that the rules grant [...] to the next
    /// closing of that place."
    pub fn follow(&mut self, call: &Call) {
        match *call {
            Call::Open { place, user, label } => {
                if let Some(opened) = self.granted(place, user, label) {
                    self.open.insert(place, opened);
                }
            }
            Call::Close { place } => {
                self.open.remove(&place);
            }
            _ => {}
        }
    }

    /// "place 1 to 64 and not open, user and label in range, clearance
    /// dominating the label"
    fn granted(&self, place: u64, user: u64, label: u64) -> Option<Opened> {
        let user = usize::try_from(user).ok()?;
        let label = usize::try_from(label).ok()?;
        let clearance = *self.labels.clearances.get(&user)?;
        let granted = (1..=PLACES).contains(&place)
            && !self.open.contains_key(&place)
            && (1..=self.labels.count).contains(&label)
            && self.labels.dominance.over(clearance, label);
        granted.then_some(Opened { user, label })
    }

    /// Whether a place is open with a label that L dominates.
    pub fn is_under(&self, label: usize, place: u64) -> bool {
        self.at(place)
            .is_some_and(|opened| self.labels.dominance.over(label, opened.label))
    }

    /// "The shared calls are all openings and closings, refused ones too, and
    /// each call at a place that is then open with a label L dominates."
    pub fn is_shared(&self, label: usize, call: &Call) -> bool {
        match (call, call.place()) {
            (Call::Open { .. } | Call::Close { .. }, _) => true,
            (_, Some(place)) => self.is_under(label, place),
            (_, None) => unreachable!("{call} stands in no run"),
        }
    }
}

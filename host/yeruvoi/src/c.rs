//! The functions of include/monitor.h that the command calls.

#[repr(C)]
pub struct Verdict {
    pub number: u64,
    pub first: u64,
    pub second: u64,
}

#[repr(C)]
pub struct Figure {
    pub number: u64,
    pub figure: u64,
}

#[repr(C)]
pub struct Counts {
    pub number: u64,
    pub labels: u64,
    pub roles: u64,
    pub users: u64,
    pub cards: u64,
}

#[repr(C)]
pub struct Set {
    pub number: u64,
    pub low: u64,
    pub high: u64,
}

extern "C" {
    pub fn monitor_load(
        file: *const u8,
        file_length: usize,
        state: *mut u8,
        length: usize,
    ) -> Verdict;
    pub fn monitor_counts_of(state: *const u8, length: usize) -> Counts;
    pub fn monitor_clearance(state: *const u8, length: usize, user: u64) -> Figure;
    pub fn monitor_card_label(state: *const u8, length: usize, card: u64) -> Figure;
    pub fn monitor_level(state: *const u8, length: usize, role: u64, mode: u64) -> Figure;
    pub fn monitor_dominates(state: *const u8, length: usize, a: u64, b: u64) -> Figure;
    pub fn monitor_senior(state: *const u8, length: usize, r: u64, q: u64) -> Figure;
    pub fn monitor_assigned(state: *const u8, length: usize, user: u64, role: u64) -> Figure;
    pub fn monitor_takable(state: *const u8, length: usize, user: u64, label: u64) -> Set;
    pub fn monitor_gives(
        state: *const u8,
        length: usize,
        low: u64,
        high: u64,
        label: u64,
        card: u64,
        mode: u64,
    ) -> Figure;
    pub fn monitor_flows(state: *const u8, length: usize, from: u64, to: u64) -> Figure;
    pub fn monitor_circle(state: *const u8, length: usize) -> Figure;
    pub fn monitor_can(
        state: *const u8,
        length: usize,
        user: u64,
        label: u64,
        card: u64,
        mode: u64,
    ) -> Figure;
}

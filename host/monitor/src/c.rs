//! The C functions of include/monitor.h.

use monitor_model::answer::{CountsAnswer, Figure, SessionAnswer, SetAnswer, Verdict};

extern "C" {
    pub fn monitor_load(
        file: *const u8,
        file_len: usize,
        state: *mut u8,
        state_len: usize,
    ) -> Verdict;
    pub fn monitor_open(state: *mut u8, state_len: usize, place: u64, user: u64, label: u64)
        -> u64;
    pub fn monitor_close(state: *mut u8, state_len: usize, place: u64) -> u64;
    pub fn monitor_take(state: *mut u8, state_len: usize, place: u64, role: u64) -> u64;
    pub fn monitor_drop(state: *mut u8, state_len: usize, place: u64, role: u64) -> u64;
    pub fn monitor_read_number(
        state: *const u8,
        state_len: usize,
        store: *const u8,
        store_len: usize,
        place: u64,
        card: u64,
        offset: u64,
        length: u64,
    ) -> u64;
    pub fn monitor_write(
        state: *const u8,
        state_len: usize,
        store: *mut u8,
        store_len: usize,
        place: u64,
        card: u64,
        offset: u64,
        bytes: *const u8,
        bytes_len: usize,
    ) -> u64;
    pub fn monitor_flows(state: *const u8, state_len: usize, from: u64, to: u64) -> Figure;
    pub fn monitor_circle(state: *const u8, state_len: usize) -> Figure;
    pub fn monitor_can(
        state: *const u8,
        state_len: usize,
        user: u64,
        label: u64,
        card: u64,
        mode: u64,
    ) -> Figure;
    pub fn monitor_counts_of(state: *const u8, state_len: usize) -> CountsAnswer;
    pub fn monitor_session_at(state: *const u8, state_len: usize, place: u64) -> SessionAnswer;
    pub fn monitor_clearance(state: *const u8, state_len: usize, user: u64) -> Figure;
    pub fn monitor_card_label(state: *const u8, state_len: usize, card: u64) -> Figure;
    pub fn monitor_level(state: *const u8, state_len: usize, role: u64, mode: u64) -> Figure;
    pub fn monitor_dominates(state: *const u8, state_len: usize, a: u64, b: u64) -> Figure;
    pub fn monitor_senior(state: *const u8, state_len: usize, r: u64, q: u64) -> Figure;
    pub fn monitor_assigned(state: *const u8, state_len: usize, user: u64, role: u64) -> Figure;
    pub fn monitor_takable(state: *const u8, state_len: usize, user: u64, label: u64) -> SetAnswer;
    pub fn monitor_gives(
        state: *const u8,
        state_len: usize,
        low: u64,
        high: u64,
        label: u64,
        card: u64,
        mode: u64,
    ) -> Figure;
}

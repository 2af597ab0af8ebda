//! The library gives document 01's own examples, by its numbers and through the safe functions.

mod common;

use card_model::paper;
use common::wrapper::WRAPPER;
use common::LIBRARY;

#[test]
fn bench_session() {
    paper::session(&LIBRARY);
    paper::session(&WRAPPER);
}

#[test]
fn cases_a_to_h() {
    paper::growing(&LIBRARY);
    paper::growing(&WRAPPER);
}

#[test]
fn panel_values() {
    paper::panel(&LIBRARY);
    paper::panel(&WRAPPER);
}

//! The rules written here give document 01's own examples.

use card_model::call::MODEL;
use card_model::paper;

#[test]
fn bench_session() {
    paper::session(&MODEL);
}

#[test]
fn cases_a_to_h() {
    paper::growing(&MODEL);
}

#[test]
fn panel_values() {
    paper::panel(&MODEL);
}

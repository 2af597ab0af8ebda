//! Easton's own experiment, on a card: his Uniform and Zipf workloads of 3000 entries, loaded
//! through the library, and the buckets they took beside those of his Tables 2 and 3.
//!
//! `cargo run --release --example easton` prints the table of docs/EASTON.md. A number after `--`
//! is how many seeds to load with.

mod paper;
#[allow(dead_code)]
#[path = "../../tests/common/random.rs"]
mod random;
mod survey;
mod workload;

use card::{Shape, Status};
use random::Random;
use survey::{Loaded, Survey};

const BUCKETS: u32 = 512;
const SECTORS: u32 = 30;
const TI: u32 = 25;

/// Posts every key in turn, stamps 1, 2, 3 and on, and counts the buckets.
fn load(keys: &[u32], td: u32) -> Survey {
    let shape = Shape { buckets: BUCKETS, sectors: SECTORS, td, ti: TI };
    let mut bytes = vec![0; shape.bytes().expect("the shape is small")];
    card::format(&mut bytes, shape).expect("the card is blank");
    let mut loaded = Loaded::default();
    for (&key, at) in keys.iter().zip(1..) {
        card::post(&mut bytes, key, at, Status::Timed, at).expect("the card has room for the experiment");
        loaded.after_a_post(&bytes);
    }
    survey::of(&bytes, &loaded)
}

/// The mean over the seeds, and the least and the most.
fn spread(values: &[f64]) -> String {
    let mean = values.iter().sum::<f64>() / values.len() as f64;
    let least = values.iter().copied().fold(f64::INFINITY, f64::min);
    let most = values.iter().copied().fold(0.0, f64::max);
    let whole = values.iter().all(|value| value.fract() == 0.0);
    if whole {
        format!("{mean:.1} ({least:.0}-{most:.0})")
    } else {
        format!("{mean:.1} ({least:.1}-{most:.1})")
    }
}

fn row(row: &paper::Row, seeds: u64) {
    let surveys: Vec<Survey> = (1..=seeds)
        .map(|seed| {
            let mut random = Random::new(seed);
            load(&row.workload.keys(&mut random), row.td)
        })
        .collect();
    let column = |of: fn(&Survey) -> f64| spread(&surveys.iter().map(of).collect::<Vec<f64>>());
    println!(
        "| {} | {} | {} | {} | {} | {} | {} | {} | {} | {} | {} | {} | {} |",
        row.workload.name(),
        row.td,
        row.active,
        column(|s| s.active as f64),
        row.split,
        column(|s| s.split as f64),
        row.copied,
        column(|s| s.copied as f64),
        row.total,
        column(|s| s.total as f64),
        format_args!("{:.1}", row.fanout),
        column(Survey::fanout),
        column(|s| s.second as f64),
    );
}

fn main() {
    let seeds = std::env::args().nth(1).map_or(20, |said| said.parse().expect("a number of seeds"));
    println!(
        "3000 posts, m = {SECTORS}, TI = {TI}; mean (least-most) of {seeds} seeds beside the paper's figure"
    );
    println!();
    println!("| workload | TD | active | here | split | here | copied | here | total | here | fanout | here | root's fanout here |");
    println!("|---|---|---|---|---|---|---|---|---|---|---|---|---|");
    for of_the_paper in &paper::ROWS {
        row(of_the_paper, seeds);
    }
}

//! The paper's figures: Table 2 (data buckets) and Table 3 (fanout of the second index level).

use crate::workload::Workload;

pub struct Row {
    pub workload: Workload,
    pub td: u32,
    pub active: u32,
    pub split: u32,
    pub copied: u32,
    pub total: u32,
    pub fanout: f64,
}

const fn row(workload: Workload, td: u32, [active, split, copied, total]: [u32; 4], fanout: f64) -> Row {
    Row { workload, td, active, split, copied, total, fanout }
}

pub const ROWS: [Row; 8] = [
    row(Workload::Zipf, 6, [97, 96, 14, 207], 16.2),
    row(Workload::Zipf, 15, [85, 84, 37, 206], 21.3),
    row(Workload::Zipf, 24, [71, 70, 99, 240], 17.8),
    row(Workload::Zipf, 28, [62, 61, 184, 307], 15.5),
    row(Workload::Uniform, 6, [117, 116, 0, 233], 14.6),
    row(Workload::Uniform, 15, [99, 98, 18, 215], 16.5),
    row(Workload::Uniform, 24, [61, 60, 110, 231], 15.3),
    row(Workload::Uniform, 28, [51, 50, 204, 305], 17.0),
];

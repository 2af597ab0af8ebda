//! The panel digits of a time.

#[derive(Clone, Copy, Debug, Default, PartialEq, Eq)]
pub struct Digits {
    pub code: u32,
    pub places: [u8; 6],
}

/// The time's digits in a field of 4, 5 or 6 places: the next longer hundredth unless the thousandth is 0.
pub fn digits(time: u32, field: u32) -> Digits {
    let refused = Digits { code: 7, places: [0; 6] };
    let longest = match field {
        4 => 59_99,
        5 => 9_59_99,
        6 => 99_59_99,
        _ => return refused,
    };
    let hundredths = time.div_ceil(10);
    let (minutes, seconds) = (hundredths / 6000, hundredths / 100 % 60);
    let shown = minutes * 10_000 + seconds * 100 + hundredths % 100;
    if shown > longest {
        return refused;
    }
    let mut places = [0; 6];
    let mut rest = shown;
    for place in places[..field as usize].iter_mut().rev() {
        *place = (rest % 10) as u8;
        rest /= 10;
    }
    Digits { code: 0, places }
}

//! The safe functions say in Rust types what the numbers say.

use card::{Look, NoRefusal, Record, Refusal, Request, Shape, Status};

fn small() -> Vec<u8> {
    let shape = Shape::new(2, 4);
    let mut bytes = vec![0; shape.bytes().unwrap()];
    card::format(&mut bytes, shape).unwrap();
    bytes
}

#[test]
fn each_refusal_by_its_name() {
    let mut bytes = small();
    assert_eq!(card::look(&bytes[1..], 1, 1), Err(Refusal::Layout));
    assert_eq!(card::look(&bytes, 0, 1), Err(Refusal::NoBib));
    assert_eq!(card::post(&mut bytes, 1, 0, Status::DidNotStart, 1), Err(Refusal::NoStatus));
    assert_eq!(card::post(&mut bytes, 1, 0, Status::Timed, 1), Err(Refusal::Stamp));
    assert_eq!(card::strike(&mut bytes, 1, 1), Err(Refusal::NothingStands));
    for at in 1..=3 {
        assert_eq!(card::post(&mut bytes, 1, at, Status::Timed, 5), Ok(()));
    }
    assert_eq!(card::post(&mut bytes, 1, 4, Status::Timed, 5), Err(Refusal::Full));
    assert_eq!(card::digits(0, 7), Err(Refusal::Panel));
    assert_eq!(card::format(&mut [0; 15], Shape::new(2, 4)), Err(Refusal::Shape));
    assert_eq!(card::format(&mut bytes, Shape::new(2, 4)), Err(Refusal::NotBlank));
    bytes[16] = 5;
    assert_eq!(card::next(&bytes, 0, 9), Err(Refusal::Damage));
    bytes[8] = 10;
    assert_eq!(card::next(&bytes, 0, 9), Err(Refusal::TooEarly));
    let unpaired = card::batch(&mut bytes, &[[0; 16]], &mut [0; 2]).map(drop);
    assert_eq!(unpaired, Err(Refusal::Unpaired));
}

/// Each number, its name and its words.
const SAID: [(u32, Refusal, &str); 14] = [
    (1, Refusal::Layout, "the card's head or length breaks the layout"),
    (2, Refusal::NoBib, "bib 0 is no bib"),
    (3, Refusal::Stamp, "the stamp is not above the largest on the card"),
    (4, Refusal::Damage, "the card is damaged on the log or path"),
    (5, Refusal::NothingStands, "nothing stands for this bib"),
    (6, Refusal::Full, "the card is full"),
    (7, Refusal::Panel, "the time does not fit the field"),
    (8, Refusal::Shape, "the shape breaks a limit or is not of the card's length"),
    (9, Refusal::NotBlank, "the card is not blank"),
    (11, Refusal::NoRequest, "the request is not laid out as a post or a strike"),
    (12, Refusal::Unpaired, "the requests are not whole or not as many as the answers"),
    (13, Refusal::TooEarly, "the stamp asked about is before the card's beginning"),
    (14, Refusal::NoStatus, "the status is none, or has a time beside it"),
    (15, Refusal::NoRoom, "the buffer is too short"),
];

#[test]
fn numbers_names_and_words() {
    for (number, refusal, words) in SAID {
        assert_eq!(Refusal::try_from(number), Ok(refusal));
        assert_eq!((u32::from(refusal), refusal.number()), (number, number));
        assert_eq!(refusal.to_string(), words);
    }
    for number in [0, 10, 16, u32::MAX] {
        assert_eq!(Refusal::try_from(number), Err(NoRefusal(number)));
        assert_eq!(NoRefusal(number).to_string(), format!("no refusal has the number {number}"));
    }
}

/// What each request of a batch is answered, from either end, and the bytes that its requests are.
#[test]
fn a_batch_in_rust_types() {
    let mut bytes = small();
    let post = Request::Post { bib: 0x0403_0201, at: 0x0807_0605, status: Status::Timed, time: 0x0c0b_0a09 };
    let strike = Request::Strike { bib: 0x0403_0201, at: 0x0807_0606 };
    assert_eq!(post.sector(), [1, 0, 0, 0, 1, 2, 3, 4, 5, 6, 7, 8, 9, 10, 11, 12]);
    assert_eq!(strike.sector(), [2, 0, 0, 0, 1, 2, 3, 4, 6, 6, 7, 8, 0, 0, 0, 0]);
    let no_bib = Request::Post { bib: 0, at: u32::MAX, status: Status::Timed, time: 1 };
    let sheet = [post.sector(), [9; 16], no_bib.sector(), strike.sector(), strike.sector()];
    let mut numbers = [0x5a; 5];
    let mut answers = card::batch(&mut bytes, &sheet, &mut numbers).unwrap();
    assert_eq!((answers.len(), answers.next_back()), (5, Some(Err(Refusal::Stamp))));
    let rest: Vec<_> = answers.by_ref().collect();
    assert_eq!(rest, [Ok(()), Err(Refusal::NoRequest), Err(Refusal::NoBib), Ok(())]);
    assert_eq!((answers.next(), answers.next_back()), (None, None));
    assert_eq!(numbers, [0, 11, 2, 0, 3]);
    let then = card::look(&bytes, 0x0403_0201, 0x0807_0605).unwrap().record;
    assert_eq!(
        then,
        Some(Record { bib: 0x0403_0201, at: 0x0807_0605, status: Status::Timed, time: Some(0x0c0b_0a09) })
    );
}

/// The head has m, TD and TI in bytes 1 to 3; a threshold of 0 is stored as the number meant.
#[test]
fn shapes_as_the_head_has_them() {
    let shape = Shape::new(3, 15);
    let shapes =
        [(shape, [7, 14]), (shape.td(2), [2, 14]), (shape.ti(5), [7, 5]), (shape.td(8).ti(9), [8, 9])];
    for (shape, [td, ti]) in shapes {
        let mut bytes = vec![0; shape.bytes().unwrap()];
        card::format(&mut bytes, shape).unwrap();
        assert_eq!(bytes[..8], [6, 15, td, ti, 3, 0, 0, 0]);
    }
}

#[test]
fn records_as_printed() {
    for (time, shown) in [(0, "0.000"), (7, "0.007"), (59_990, "59.990"), (u32::MAX, "4294967.295")] {
        assert_eq!(
            Record { bib: 12, at: 34, status: Status::Timed, time: Some(time) }.to_string(),
            format!("bib 12: {shown} at 34")
        );
    }
}

/// A time of 0 is a time: only stamp 0 says that there is no record.
#[test]
fn a_time_of_zero_stands() {
    let mut bytes = small();
    card::post(&mut bytes, 1, 1, Status::Timed, 0).unwrap();
    let record = Record { bib: 1, at: 1, status: Status::Timed, time: Some(0) };
    assert_eq!(card::look(&bytes, 1, 1), Ok(Look { record: Some(record), reads: 2 }));
    assert_eq!(card::next(&bytes, 0, 1), Ok(Some(record)));
    assert_eq!(card::look(&bytes, 2, 1), Ok(Look { record: None, reads: 2 }));
    assert_eq!(card::next(&bytes, 1, 1), Ok(None));
}

#[test]
fn panels_as_shown() {
    for (time, field, shown) in
        [(5, 4, "00.01"), (61_230, 5, "1:01.23"), (61_231, 5, "1:01.24"), (5_999_990, 6, "99:59.99")]
    {
        let panel = card::digits(time, field).unwrap();
        assert_eq!((panel.to_string().as_str(), panel.digits().len()), (shown, field as usize));
        assert!(panel.places()[field as usize..].iter().all(|&place| place == 0));
    }
}

#[test]
fn shapes_too_large_to_count() {
    assert_eq!(Shape::new(4096, 32).bytes(), Some(2_162_704));
    assert_eq!(Shape::new(u32::MAX, u32::MAX).bytes(), None);
}

//! Answers read from any words.
mod common;
use common::{Random, CODES};
use hookyellow::{Answer, Located, Position, Statistics};

/// Words that look like counts, flags, cells or floats, or like nothing.
fn word(random: &mut Random) -> u64 {
    match random.below(6) {
        0 => 0,
        1 => 1,
        2 => random.below(5) as u64,
        3 => u64::MAX - random.below(2) as u64,
        4 => 0x7ff0_0000_0000_0000 | random.next(),
        _ => random.next(),
    }
}

/// No words make the reader fail, and what is read are all the words, by their bits.
#[test]
fn what_is_read_is_written_back() {
    let mut random = Random(1);
    let mut read = [0; 16];
    for _ in 0..200_000 {
        let words: Vec<u64> = (0..random.below(24)).map(|_| word(&mut random)).collect();
        for code in 0..16 {
            if let Some(answer) = Answer::from_words(code, &words) {
                assert_eq!(answer.to_words(), words, "code {code}");
                read[code as usize] += 1;
            }
        }
    }
    for (code, &count) in read.iter().enumerate() {
        assert_eq!(count > 0, CODES.contains(&(code as u64)), "{read:?}");
    }
}

#[test]
fn counts_beyond_the_words_are_not_of_the_format() {
    for code in [3, 4, 5, 11, 12, 13, 14] {
        for count in [1, 1 << 32, u64::MAX / 3 + 1, u64::MAX] {
            assert_eq!(Answer::from_words(code, &[count]), None, "code {code}, count {count}");
        }
    }
    for code in [4, 12] {
        assert_eq!(Answer::from_words(code, &[1, u64::MAX, 0, 0, 0]), None);
    }
    for code in [13, 14] {
        assert_eq!(Answer::from_words(code, &[2, 0, 0, 0]), None);
    }
    assert_eq!(Answer::from_words(5, &[1, 0, u64::MAX, 0, 0, 0]), None);
}

#[test]
fn words_left_over_or_flags_other_than_0_and_1_are_not_of_the_format() {
    for (locate, velocity, sheet) in [(1, 2, 13), (9, 10, 14)] {
        assert_eq!(Answer::from_words(locate, &[0, 1, 0]), None);
        assert_eq!(Answer::from_words(sheet, &[1, 0, 0, 0]), None);
        assert_eq!(Answer::from_words(velocity, &[2, 0, 0, 0]), None);
        assert_eq!(Answer::from_words(velocity, &[0, 0, 0, 1]), None);
    }
    assert_eq!(Answer::from_words(8, &[u64::MAX, 0, 0, 0, 1]), None);
    for (flags, good) in [([0, 0, 0], true), ([0, 1, 0], false), ([0, 0, 1], false), ([1, 0, 0], true), ([2, 0, 0], false)] {
        let words = [&[0; 10][..], &flags].concat();
        assert_eq!(Answer::from_words(6, &words).is_some(), good, "{flags:?}");
    }
}

/// 0 for none, 1 for an edge, 2 for inside: a cell without a position, a position without a cell,
/// and any other number are no answers.
#[test]
fn positions_are_those_of_the_table() {
    let none = u64::MAX;
    let at = |cell, position| Some(Answer::Locate(Some(Located { cell, position })));
    for code in [1, 9] {
        assert_eq!(Answer::from_words(code, &[none, 0]), Some(Answer::Locate(None)));
        assert_eq!(Answer::from_words(code, &[7, 1]), at(7, Position::Edge));
        assert_eq!(Answer::from_words(code, &[7, 2]), at(7, Position::Inside));
        for words in [[7, 0], [7, 3], [7, none], [none, 1], [none, 2], [none, none]] {
            assert_eq!(Answer::from_words(code, &words), None, "{words:?}");
        }
        assert_eq!(Answer::from_words(code, &[none]), None);
        assert_eq!(Answer::from_words(code, &[7]), None);
    }
}

/// Each word of code 6 in its field, in the order of docs/FORMAT.md.
#[test]
fn statistics_have_the_order_of_the_table() {
    let mut words: Vec<u64> = (0..13).map(|i| f64::from(i).to_bits()).collect();
    words[0] = 5;
    words[10] = 1;
    let Some(Answer::Statistics(s)) = Answer::from_words(6, &words) else { panic!("not read") };
    let Statistics { used, area, minimum, maximum, mean, integral, .. } = s;
    assert_eq!((used, [area, minimum, maximum, mean, integral]), (5, [1., 2., 3., 4., 5.]));
    assert_eq!([s.flux, s.positive_flux, s.negative_flux, s.absolute_flux], [6., 7., 8., 9.]);
    let weighted = s.weighted.unwrap();
    assert_eq!([weighted.value, weighted.reverse_fraction], [11., 12.]);
}

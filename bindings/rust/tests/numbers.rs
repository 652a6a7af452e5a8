//! The numbers as an enum, and back, and in words.

use gcf::Number;

#[test]
fn every_number_comes_back() {
    assert_eq!(Number::of(0), None);
    for number in 1..=255 {
        assert_eq!(Number::of(number).map(Number::number), Some(number));
    }
}

/// Each number that is given has a sentence, and no other has any; as an error it says it.
#[test]
fn every_number_has_its_words() {
    for number in (1..=255).filter_map(Number::of) {
        let words = number.words();
        assert_eq!(words.as_str().is_empty(), matches!(number, Number::Other(_)));
        let error: Box<dyn std::error::Error> = number.into();
        assert_eq!(error.to_string(), format!("{}: {}", number.number(), words.as_str()));
    }
}

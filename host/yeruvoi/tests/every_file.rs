//! Any bytes get an answer: number and place of the second checker, and a
//! cause.

mod common;

use second_checker::check::check;
use second_checker::generate::mixed;
use second_checker::random::Random;
use yeruvoi::arguments::Settings;
use yeruvoi::check::answer;
use yeruvoi::input::Input;

/// What is printed of a file begins with its verdict and has a cause.
fn check_answer(file: &[u8]) {
    let outcome = check(file);
    let [first, second] = outcome.place();
    let [text, json] = [false, true].map(|json| {
        let settings = Settings {
            json,
            ..Settings::default()
        };
        answer(&Input::of(file), &settings)
    });
    assert_eq!(
        (text.status, json.status),
        (u8::from(outcome.number() != 0), text.status)
    );
    if outcome.number() == 0 {
        assert!(text.text.starts_with("accepted: "));
        assert!(json.text.starts_with("{\"accepted\": true, "));
        return;
    }
    let number = outcome.number();
    assert!(text.text.starts_with(&format!("refused with {number}")));
    assert!(text.text.lines().count() > 1, "{}", text.text);
    let start =
        format!("{{\"accepted\": false, \"number\": {number}, \"place\": [{first}, {second}], ");
    assert!(json.text.starts_with(&start));
    assert!(!json.text.contains("\"cause\": null"));
    let shown = |byte: u8| (b' '..=b'~').contains(&byte) || byte == b'\n';
    assert!(text.text.bytes().all(shown) && json.text.bytes().all(shown));
}

#[test]
fn a_role_file_of_any_kind_gets_an_answer() {
    (0..500).for_each(|index| check_answer(&mixed(21, index)));
}

#[test]
fn bytes_of_any_kind_get_an_answer() {
    for index in 0..500 {
        let random = &mut Random::for_file(22, index);
        let rest = random.below(22) * random.pick(&[0, 0, 1]);
        let length = 22 * random.below(4) + rest;
        let mut bytes = random.bytes(length);
        bytes.iter_mut().for_each(|byte| {
            if random.percent(60) {
                *byte = random.pick(b"HDSUOPA 0123456789\n\r\t");
            }
        });
        check_answer(&bytes);
    }
}

//! The position gate: texts and limits of all kinds, beside the yardstick.

mod common;

use common::on_small_stack;
use ixml::{ffi, number, Gate, GateError, Latitude, Longitude, Reader, Verdict};
use ixml_yardstick::gate as yardstick;
use ixml_yardstick::gen::Random;

/// The gate of the yardstick, and of the library.
fn gates(kind: usize, limits: [f64; 4]) -> (yardstick::Gate, Gate) {
    let [south, north, west, east] = limits;
    let latitude = [south, north];
    let longitude = [west, east];
    match kind {
        0 => (yardstick::Gate::Anywhere, Gate::Anywhere),
        1 => (
            yardstick::Gate::Band { latitude },
            Gate::Band { south, north },
        ),
        _ => (
            yardstick::Gate::Box {
                latitude,
                longitude,
            },
            Gate::Box {
                south,
                north,
                west,
                east,
            },
        ),
    }
}

fn verdict(verdict: yardstick::Verdict) -> Verdict {
    match verdict {
        yardstick::Verdict::Inside => Verdict::Inside,
        yardstick::Verdict::Swapped => Verdict::Swapped,
        yardstick::Verdict::Suspect => Verdict::Suspect,
    }
}

/// A number text, more often than not.
fn text(random: &mut Random) -> String {
    let mut text = String::new();
    if random.chance(40) {
        text.push('-');
    }
    let most = *random.pick(&[1, 2, 2, 3, 3, 4]);
    for _ in 0..most {
        text.push((b'0' + random.below(10) as u8) as char);
    }
    if random.chance(60) {
        text.push('.');
        for _ in 0..random.below(11) {
            text.push((b'0' + random.below(10) as u8) as char);
        }
    }
    if random.chance(8) {
        let characters: Vec<char> = "0123456789.-+ eE,\u{661}\n\t'&".chars().collect();
        let at = random.below(text.len() + 1);
        text.insert(at, *random.pick(&characters));
    }
    text
}

/// A limit: a number of degrees, one that a text has, or any double.
fn limit(random: &mut Random, texts: [&str; 2]) -> f64 {
    let special = [0.0, -0.0, 90.0, -90.0, 180.0, f64::INFINITY, f64::NAN];
    match random.below(8) {
        0 => *random.pick(&special),
        1 => f64::from_bits(random.number()),
        2 | 3 => random.pick(&texts).parse().unwrap_or(45.0),
        4 => -random.pick(&texts).parse().unwrap_or(45.0),
        _ => random.below(400) as f64 - 200.0,
    }
}

#[test]
fn rulings_agree_with_the_yardstick() {
    on_small_stack(|| {
        let mut random = Random::new(8);
        let mut seen = [0; 6];
        for _ in 0..1_000_000 {
            let (lat, lon) = (text(&mut random), text(&mut random));
            let mut limits = [0.0; 4].map(|_| limit(&mut random, [&lat, &lon]));
            if random.chance(80) {
                for (low, high) in [(0, 1), (2, 3)] {
                    if limits[low] > limits[high] {
                        limits.swap(low, high);
                    }
                }
            }
            let (expected, gate) = gates(random.below(4), limits);
            let expected = yardstick::judge(expected, lat.as_bytes(), lon.as_bytes());
            let ruling = gate.judge(Latitude::new(&lat), Longitude::new(&lon));
            assert_eq!(
                ruling.map_err(GateError::number),
                expected.map(verdict).map_err(|refusal| refusal.number()),
                "{gate:?} {lat:?} {lon:?}"
            );
            seen[match ruling {
                Ok(verdict) => verdict as usize,
                Err(refusal) => 3 + refusal as usize,
            }] += 1;
        }
        assert!(seen.iter().all(|&count| count > 1000), "{seen:?}");
    });
}

/// A number's value is that of the standard library's parser, to the bit.
fn assert_value(text: &str) {
    let expected: f64 = text.parse().expect(text);
    let value = number(text).expect(text);
    assert_eq!(value.to_bits(), expected.to_bits(), "{text}");
}

#[test]
fn values_are_the_nearest_doubles() {
    for whole in 0..=999 {
        for sign in ["", "-"] {
            assert_value(&format!("{sign}{whole}"));
            assert_value(&format!("{sign}{whole:03}"));
            for fraction in 0..100 {
                assert_value(&format!("{sign}{whole}.{fraction:02}"));
            }
        }
    }
    let mut random = Random::new(9);
    for _ in 0..1_000_000 {
        let digits = random.number() % 1_000_000_000_000;
        let text = format!("{digits:012}");
        let places = 1 + random.below(9);
        assert_value(&format!("{}.{}", &text[..3], &text[3..3 + places]));
    }
}

#[test]
fn texts_agree_with_the_yardstick() {
    let mut random = Random::new(10);
    for _ in 0..300_000 {
        let text = text(&mut random);
        let bits = |value: f64| value.to_bits();
        assert_eq!(
            number(&text).ok().map(bits),
            yardstick::number(text.as_bytes()).map(bits),
            "{text:?}"
        );
    }
    for first in 0..=255 {
        for second in 0..=255 {
            let bytes = [first, second];
            let expected = yardstick::number(&bytes);
            assert_eq!(number(bytes).ok(), expected, "{bytes:?}");
        }
    }
}

/// What stands between the quotes of an attribute is a number text exactly when
/// the attribute's text is.
#[test]
fn attributes_are_judged_as_they_stand_in_the_xml() {
    let mut random = Random::new(11);
    let mut reader = Reader::new();
    let characters: Vec<char> = "0123456789.-&<>'\"\r\n\té".chars().collect();
    let mut numbers = 0;
    for _ in 0..3000 {
        let text: String = if random.chance(30) {
            (0..random.below(8))
                .map(|_| *random.pick(&characters))
                .collect()
        } else {
            text(&mut random).replace('\u{661}', "")
        };
        let xml = reader.convert("a: @b. b: ~[]*.", &text).expect("read").xml;
        let value = xml
            .strip_prefix("<a b='")
            .and_then(|xml| xml.strip_suffix("'/>"));
        let value = value.expect("an attribute");
        assert_eq!(number(value), number(&text), "{text:?}");
        numbers += usize::from(number(&text).is_ok());
    }
    assert!(numbers > 1000, "{numbers}");
}

#[test]
fn a_refusal_has_no_verdict_and_no_value() {
    let bad = b"1.";
    // SAFETY: the pointers and lengths are those of slices.
    let (gate, value) = unsafe {
        (
            ffi::ixml_gate_anywhere(bad.as_ptr(), bad.len(), bad.as_ptr(), bad.len()),
            ffi::ixml_number(bad.as_ptr(), bad.len()),
        )
    };
    assert_eq!((gate.number, gate.verdict), (31, 0));
    assert_eq!((value.number, value.value.to_bits()), (31, 0));
}

#[test]
fn refusals_have_sentences() {
    let all = [
        GateError::UnsoundGate,
        GateError::NoNumber,
        GateError::OutOfRange,
    ];
    for (refusal, number) in all.into_iter().zip(30..) {
        assert_eq!(refusal.number(), number);
        let sentence = format!("refused {number}: {}", refusal.sentence());
        assert_eq!(refusal.to_string(), sentence);
    }
}

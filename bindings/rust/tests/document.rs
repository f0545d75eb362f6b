//! Document 01: its examples, each refusal with its place, and the edges of a call.

use njuxaleet::{class_of, fill, next_end, tokens, Class, Filled, Options, Refusal, LONGEST};

const O200K: Options = Options::O200K;
const MODE0: Options = Options { digits: 0, ..O200K };
const MODE2: Options = Options { digits: 2, ..O200K };
const MODE3: Options = Options { digits: 3, ..O200K };
const NO_CONTRACTIONS: Options = Options {
    contractions: false,
    ..O200K
};
const NO_SLASH: Options = Options {
    slash: false,
    ..O200K
};
const KEPT: u32 = 0xABAB_ABAB;

const EXAMPLES: [(&[u8], Options, &[u32]); 24] = [
    (b"", O200K, &[]),
    (b"THD 1250", O200K, &[3, 4, 7, 8]),
    (b"THD 1250", MODE2, &[3, 4, 5, 8]),
    (b"THD 1250", MODE0, &[3, 4, 5, 6, 7, 8]),
    (b"0,5", O200K, &[1, 2, 3]),
    (b"don't", O200K, &[5]),
    (b"don't", NO_CONTRACTIONS, &[3, 5]),
    (b"'sound", O200K, &[6]),
    (b"x'll'd", O200K, &[4, 6]),
    (b"a'\xC5\xBFb", O200K, &[4, 5]),
    (b"\xD7\x90A", O200K, &[2, 3]),
    (b"\xD7\x90Ab", O200K, &[4]),
    (b"\xCC\x81A", O200K, &[2, 3]),
    (b"  a", O200K, &[1, 3]),
    (b" \n x", O200K, &[2, 4]),
    (b"!\n/!", O200K, &[3, 4]),
    (b"!\n/!", NO_SLASH, &[2, 4]),
    (b"aB", O200K, &[1, 2]),
    (b"ABc", O200K, &[3]),
    (b"\tV", O200K, &[2]),
    (b"\t5", O200K, &[1, 2]),
    (b"\xC2\xA0a", O200K, &[3]),
    (b"1\xC2\xB234", O200K, &[4, 5]),
    (b"1\xC2\xB234", MODE2, &[1, 5]),
];

/// All three calls refuse so (`tokens` where the start is 0), and the fill writes nothing, whether or not there is room.
fn refused(text: &[u8], options: Options, start: usize, refusal: Refusal) {
    assert_eq!(next_end(text, options, start), Err(refusal));
    let mut ends = [KEPT; 4];
    assert_eq!(fill(text, options, start, &mut ends), Err(refusal));
    assert_eq!(fill(text, options, start, &mut []), Err(refusal));
    assert_eq!(ends, [KEPT; 4]);
    if start == 0 {
        assert_eq!(tokens(text, options).err(), Some(refusal));
    }
}

#[test]
fn examples_by_fill() {
    for (text, options, expected) in EXAMPLES {
        let mut ends = [KEPT; 16];
        let filled = fill(text, options, 0, &mut ends);
        assert_eq!(
            filled,
            Ok(Filled {
                count: expected.len(),
                next: text.len()
            }),
            "{text:?} {options:?}"
        );
        assert_eq!(&ends[..expected.len()], expected, "{text:?} {options:?}");
        assert!(
            ends[expected.len()..].iter().all(|&e| e == KEPT),
            "{text:?} {options:?}"
        );
    }
}

#[test]
fn examples_by_next_end() {
    for (text, options, expected) in EXAMPLES {
        let mut start = 0;
        for &end in expected {
            assert_eq!(
                next_end(text, options, start),
                Ok(Some(end as usize)),
                "{text:?} {options:?}"
            );
            start = end as usize;
        }
        assert_eq!(
            next_end(text, options, start),
            Ok(None),
            "{text:?} {options:?}"
        );
    }
}

#[test]
fn examples_by_tokens() {
    for (text, options, expected) in EXAMPLES {
        let cut = tokens(text, options).unwrap();
        assert_eq!(cut.len(), expected.len());
        let mut at = 0;
        for (token, &end) in cut.zip(expected) {
            assert_eq!(
                token.as_ptr(),
                text[at..].as_ptr(),
                "a token is the caller's own bytes"
            );
            at += token.len();
            assert_eq!(at, end as usize, "{text:?} {options:?}");
        }
        assert_eq!(at, text.len());
    }
}

#[test]
fn tokens_outlive_the_iterator() {
    let text = b"THD 1250".to_vec();
    let first = tokens(&text, O200K).unwrap().next();
    assert_eq!(first, Some(&b"THD"[..]));
}

#[test]
fn default_is_o200k() {
    assert_eq!(
        Options::default(),
        Options {
            contractions: true,
            digits: 1,
            slash: true
        }
    );
}

#[test]
fn mode() {
    refused(b"THD 1250", MODE3, 0, Refusal::Mode);
    refused(
        b"THD 1250",
        Options {
            digits: 255,
            ..O200K
        },
        4,
        Refusal::Mode,
    );
}

#[test]
fn too_long() {
    let mut text = vec![b'a'; LONGEST];
    assert_eq!(tokens(&text, O200K).unwrap().next(), Some(&text[..]));
    text.push(b'a');
    refused(&text, O200K, 0, Refusal::TooLong);
}

#[test]
fn not_utf8() {
    for text in [
        &b"\xF4\x90\x80\x80"[..],
        b"\xC0\x80",
        b"\xED\xA0\x80",
        b"\xE2\x82",
    ] {
        refused(text, O200K, 0, Refusal::NotUtf8 { at: 0 });
    }
    refused(b"THD \xFF", O200K, 0, Refusal::NotUtf8 { at: 4 });
    for text in [
        &b"\xF4\x8F\xBF\xBF"[..],
        b"\xC2\x80",
        b"\xED\x9F\xBF",
        b"\0",
    ] {
        assert_eq!(next_end(text, O200K, 0), Ok(Some(text.len())));
    }
}

#[test]
fn past_end() {
    refused(b"THD 1250", O200K, 9, Refusal::PastEnd { len: 8 });
    refused(b"", O200K, usize::MAX, Refusal::PastEnd { len: 0 });
}

#[test]
fn inside_a_character() {
    refused(b"\xC2\xA0a", O200K, 1, Refusal::InsideCharacter { at: 0 });
    refused(
        b"a\xF0\x9F\x94\xA5",
        O200K,
        4,
        Refusal::InsideCharacter { at: 1 },
    );
}

#[test]
fn several_refusals_at_once() {
    refused(&vec![0xFF; LONGEST + 1], MODE3, LONGEST + 2, Refusal::Mode);
    refused(
        &vec![0xFF; LONGEST + 1],
        O200K,
        LONGEST + 2,
        Refusal::TooLong,
    );
    refused(b"a\x80", O200K, 9, Refusal::NotUtf8 { at: 1 });
    refused(b"a\x80", O200K, 2, Refusal::NotUtf8 { at: 1 });
}

#[test]
fn start_at_the_end() {
    let mut ends = [KEPT; 2];
    assert_eq!(
        fill(b"aB", O200K, 2, &mut ends),
        Ok(Filled { count: 0, next: 2 })
    );
    assert_eq!(ends, [KEPT; 2]);
    assert_eq!(next_end(b"", O200K, 0), Ok(None));
}

#[test]
fn room_0() {
    assert_eq!(
        fill(b"aB", O200K, 1, &mut []),
        Ok(Filled { count: 0, next: 1 })
    );
    assert_eq!(
        fill(b"", O200K, 0, &mut []),
        Ok(Filled { count: 0, next: 0 })
    );
}

#[test]
fn piece_by_piece() {
    let mut ends = [KEPT; 3];
    assert_eq!(
        fill(b"THD 1250", O200K, 0, &mut ends),
        Ok(Filled { count: 3, next: 7 })
    );
    assert_eq!(ends, [3, 4, 7]);
    assert_eq!(
        fill(b"THD 1250", O200K, 7, &mut ends),
        Ok(Filled { count: 1, next: 8 })
    );
    assert_eq!(ends, [8, 4, 7]);
}

#[test]
fn numbers_places_and_words() {
    let rows = [
        (
            Refusal::Mode,
            1,
            0,
            "refused 1 at 0: the digit mode is above 2",
        ),
        (
            Refusal::TooLong,
            2,
            1_048_576,
            "refused 2 at 1048576: the text is over 1,048,576 bytes",
        ),
        (
            Refusal::NotUtf8 { at: 4 },
            3,
            4,
            "refused 3 at 4: the text is not UTF-8",
        ),
        (
            Refusal::PastEnd { len: 8 },
            4,
            8,
            "refused 4 at 8: the start is past the end",
        ),
        (
            Refusal::InsideCharacter { at: 1 },
            5,
            1,
            "refused 5 at 1: the start is inside a character",
        ),
    ];
    for (refusal, number, place, words) in rows {
        assert_eq!((refusal.number(), refusal.place()), (number, place));
        let error: Box<dyn std::error::Error> = refusal.into();
        assert_eq!(error.to_string(), words);
    }
}

#[test]
fn classes() {
    let rows = [
        ('A', Class::Upper),
        ('\u{1C5}', Class::Upper),
        ('a', Class::Lower),
        ('\u{5D0}', Class::Caseless),
        ('\u{301}', Class::Mark),
        ('\u{B2}', Class::Number),
        ('\u{3000}', Class::Whitespace),
        ('\u{10FFFF}', Class::Other),
    ];
    for (c, class) in rows {
        assert_eq!(class_of(c as u32), Some(class), "{c:?}");
    }
}

#[test]
fn no_scalar_no_class() {
    for c in [0xD800, 0xDFFF, 0x11_0000, u32::MAX] {
        assert_eq!(class_of(c), None, "{c:X}");
    }
}

#[test]
fn a_long_cut_joins_to_the_text() {
    let text = "THD 1250, don't! \u{5D0}\u{301}\n".repeat(40_000);
    let cut: Vec<&[u8]> = tokens(text.as_bytes(), O200K).unwrap().collect();
    assert_eq!(cut.concat(), text.as_bytes());
    assert_eq!(cut.len(), 360_000);
}

//! What is a tree, and what is none.

use super::*;

fn number(text: &str) -> Option<Number> {
    match read(text.as_bytes()) {
        Some(Value::Number(number)) => Some(number),
        _ => None,
    }
}

fn string(text: &[u8]) -> Option<String> {
    match read(text) {
        Some(Value::String(text)) => Some(text),
        _ => None,
    }
}

#[test]
fn numbers_are_exact_where_64_bits_hold_them() {
    assert_eq!(number("0"), Some(Number::Unsigned(0)));
    assert_eq!(
        number("18446744073709551615"),
        Some(Number::Unsigned(u64::MAX))
    );
    assert_eq!(
        number("18446744073709551616"),
        Some(Number::Float(18446744073709551616.0))
    );
    assert_eq!(
        number("-9223372036854775808"),
        Some(Number::Signed(i64::MIN))
    );
    assert_eq!(
        number("-9223372036854775809"),
        Some(Number::Float(-9223372036854775809.0))
    );
    assert_eq!(number("1.0"), Some(Number::Float(1.0)));
    assert_eq!(number("-25e-2"), Some(Number::Float(-0.25)));
    assert!(matches!(number("-0"), Some(Number::Float(zero)) if zero.is_sign_negative()));
    for text in [
        "00", "01", "-", "+1", "1.", ".5", "1e", "1e+", "1e999", "0x1", "1 2",
    ] {
        assert_eq!(read(text.as_bytes()), None, "{text}");
    }
}

#[test]
fn escapes_are_their_characters() {
    assert_eq!(
        string(br#""\"\\\/\b\f\n\r\t""#).as_deref(),
        Some("\"\\/\u{8}\u{c}\n\r\t")
    );
    assert_eq!(
        string(br#""k\u0041\u00e9\uD83D\uDE00""#).as_deref(),
        Some("kA\u{e9}\u{1F600}")
    );
    assert_eq!(
        string("\"\u{e9}\u{1F600}\"".as_bytes()).as_deref(),
        Some("\u{e9}\u{1F600}")
    );
    for text in [
        r#""\x""#,
        r#""\u12""#,
        r#""\uD83D""#,
        r#""\uDE00""#,
        r#""\uD83D\u0041""#,
        "\"\n\"",
        "\"",
    ] {
        assert_eq!(read(text.as_bytes()), None, "{text}");
    }
    assert_eq!(read(b"\"\xFF\""), None);
}

#[test]
fn the_last_of_two_values_of_a_key_counts() {
    let value = read(b" { \"a\" : [ ] , \"\\u0061\" : [ null , true , false , { } ] } \n");
    let items = [
        Value::Null,
        Value::Bool(true),
        Value::Bool(false),
        Value::Object(BTreeMap::new()),
    ];
    assert_eq!(
        value.as_ref().and_then(|it| it.get("a")?.as_array()),
        Some(&items[..])
    );
}

#[test]
fn what_is_no_json_is_refused() {
    for text in [
        "",
        " ",
        "nul",
        "nullnull",
        "[1,]",
        "[1 2]",
        "[,]",
        "[",
        "{\"a\"}",
        "{\"a\":}",
        "{\"a\":1,}",
        "{a:1}",
        "{",
        "]",
    ] {
        assert_eq!(read(text.as_bytes()), None, "{text}");
    }
}

#[test]
fn a_hundred_and_twenty_seven_may_stand_in_one_another() {
    let nested = |depth| format!("{}{}", "[".repeat(depth), "]".repeat(depth));
    assert!(read(nested(127).as_bytes()).is_some());
    assert!(read(nested(128).as_bytes()).is_none());
}

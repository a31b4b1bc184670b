//! Encodes text and bytes as values, and longer records as several values.
//!
//! ```
//! use ramp_client::codec::{self, Content};
//!
//! assert_eq!(codec::encode_text("two words, 100%")?, "two+words,+100%25");
//! assert_eq!(codec::decode_text("two+words,+100%25")?, "two words, 100%");
//! assert_eq!(codec::encode_bytes(&[1, 2, 3, 4])?, "0RjUA");
//! let parts = codec::encode_record("note", &Content::Text("x".repeat(200)))?; // for one put
//! assert_eq!(parts.iter().map(|(key, _)| key.as_str()).collect::<Vec<_>>(), ["note.0", "note.1"]);
//! # Ok::<(), ramp_client::Error>(())
//! ```
//!
//! Write a record with `client.put(&parts)`. Read it with `client.get(&codec::record_keys("note"))` and [`decode_record`].

use crate::error::{Error, Fault, Part};
use crate::line::{self, MOST_VALUE};
use crate::Item;

/// The digits of base 85, as in RFC 1924.
const SIGNS: &[u8; 85] = b"0123456789ABCDEFGHIJKLMNOPQRSTUVWXYZabcdefghijklmnopqrstuvwxyz!#$%&()*+-;<=>?@^_`{|}~";

/// The first value of a record begins with the number of its values and its encoding.
const HEAD: usize = 2;

/// The most keys of a record: one for each hexadecimal digit.
const MOST_PARTS: usize = 16;

/// The most bytes of an encoded record.
pub(crate) const MOST_SIGNS: usize = MOST_PARTS * MOST_VALUE - HEAD;

/// What a record holds.
#[derive(Clone, Debug, PartialEq, Eq)]
pub enum Content {
    Text(String),
    Bytes(Vec<u8>),
}

/// Encodes text. A byte from `!` to `~` other than `%` and `+` stays as it is, a space becomes `+`, and any other byte becomes `%XX`.
pub fn encode_text(text: &str) -> Result<String, Error> {
    as_value(percent_encoded(text))
}

/// Decodes a value of [`encode_text`].
pub fn decode_text(value: &str) -> Result<String, Error> {
    line::check(Part::Value, value)?;
    percent_decoded(value)
}

/// Encodes up to 102 bytes in base 85: 4 bytes become 5 digits.
pub fn encode_bytes(bytes: &[u8]) -> Result<String, Error> {
    as_value(base_85(bytes))
}

/// Decodes a value of [`encode_bytes`].
pub fn decode_bytes(value: &str) -> Result<Vec<u8>, Error> {
    line::check(Part::Value, value)?;
    of_base_85(value)
}

/// The keys of a record: `KEY.0` to `KEY.f`.
pub fn record_keys(key: &str) -> [String; MOST_PARTS] {
    const DIGITS: [char; MOST_PARTS] = ['0', '1', '2', '3', '4', '5', '6', '7', '8', '9', 'a', 'b', 'c', 'd', 'e', 'f'];
    DIGITS.map(|digit| format!("{key}.{digit}"))
}

/// Encodes a record: the keys and values for one put, the first few of [`record_keys`]. The key has 30 bytes at most. The record has at most
/// 1,636 bytes, or 2,046 bytes of encoded text.
///
/// Since one transaction writes all of its values, a record is read whole or not at all.
pub fn encode_record(key: &str, content: &Content) -> Result<Vec<(String, String)>, Error> {
    let keys = record_keys(key);
    line::check(Part::Key, &keys[0])?;
    let (form, signs) = match content {
        Content::Bytes(bytes) => ('b', base_85(bytes)),
        Content::Text(text) => {
            let (plain, dense) = (percent_encoded(text), base_85(text.as_bytes()));
            if dense.len() < plain.len() {
                ('u', dense)
            } else {
                ('t', plain)
            }
        }
    };
    let parts = (signs.len() + HEAD + MOST_VALUE - 1) / MOST_VALUE;
    if parts > MOST_PARTS {
        return Err(line::invalid(Part::Record, &signs, key, Fault::Length(signs.len())));
    }
    let signs = format!("{:x}{form}{signs}", parts - 1);
    let cut = |place: usize| signs[place * MOST_VALUE..signs.len().min((place + 1) * MOST_VALUE)].into();
    Ok(keys.into_iter().take(parts).enumerate().map(|(place, key)| (key, cut(place))).collect())
}

/// Decodes a record from the items that a `get` of [`record_keys`] returned; `None` if it was never written.
///
/// [`Error::NotWhole`] if its values are of different writes: something else wrote one of the keys.
pub fn decode_record(key: &str, items: &[Item]) -> Result<Option<Content>, Error> {
    let no_record = |why: &str| line::invalid(Part::Record, key, "", Fault::Other(why.into()));
    let keys = record_keys(key);
    let item_of = |key: &String| items.iter().find(|item| item.key == *key);
    let first = item_of(&keys[0]).ok_or_else(|| no_record("was not read: its first key is missing"))?;
    let head = match &first.value {
        Some(value) => value,
        None => return Ok(None),
    };
    let mut head = head.chars();
    let count = head.next().filter(|digit| !digit.is_ascii_uppercase()).and_then(|digit| digit.to_digit(16)).map(|digit| digit as usize + 1);
    let (count, form) = count.zip(head.next()).ok_or_else(|| no_record("is none: its first value does not begin as one"))?;
    let mut signs = String::from(head.as_str());
    for key in &keys[1..count] {
        let item = item_of(key).ok_or_else(|| no_record(&format!("was not read whole: {key} is missing")))?;
        match &item.value {
            Some(value) if item.stamp == first.stamp => signs.push_str(value),
            _ => return Err(Error::NotWhole(format!("{key} is of another write than {}: something else writes it", keys[0]))),
        }
    }
    match form {
        't' => percent_decoded(&signs).map(Content::Text),
        'u' => String::from_utf8(of_base_85(&signs)?).map(Content::Text).map_err(|_| no_record("is no text")),
        'b' => of_base_85(&signs).map(Content::Bytes),
        _ => return Err(no_record("is none: its first value does not say how it is written")),
    }
    .map(Some)
}

fn as_value(signs: String) -> Result<String, Error> {
    line::check(Part::Value, &signs).map(|()| signs)
}

fn percent_encoded(text: &str) -> String {
    let mut signs = String::with_capacity(text.len());
    for byte in text.bytes() {
        match byte {
            b' ' => signs.push('+'),
            b'!'..=b'~' if byte != b'%' && byte != b'+' => signs.push(char::from(byte)),
            _ => signs.push_str(&format!("%{byte:02X}")),
        }
    }
    signs
}

fn percent_decoded(signs: &str) -> Result<String, Error> {
    let digit = |byte: Option<u8>| byte.and_then(|byte| char::from(byte).to_digit(16));
    let mut bytes = Vec::with_capacity(signs.len());
    let mut rest = signs.bytes();
    while let Some(byte) = rest.next() {
        match byte {
            b'+' => bytes.push(b' '),
            b'%' => match digit(rest.next()).zip(digit(rest.next())) {
                Some((high, low)) => bytes.push((high * 16 + low) as u8),
                None => return Err(line::invalid(Part::Value, signs, "", Fault::Other("has a % without two digits".into()))),
            },
            other => bytes.push(other),
        }
    }
    String::from_utf8(bytes).map_err(|_| line::invalid(Part::Value, signs, "", Fault::Other("is no UTF-8 once it is decoded".into())))
}

fn base_85(bytes: &[u8]) -> String {
    let mut signs = String::with_capacity((bytes.len() + 3) / 4 * 5);
    for group in bytes.chunks(4) {
        let mut four = [0; 4];
        four[..group.len()].copy_from_slice(group);
        let mut number = u32::from_be_bytes(four);
        let mut five = [0; 5];
        for sign in five.iter_mut().rev() {
            *sign = SIGNS[(number % 85) as usize];
            number /= 85;
        }
        signs.extend(five[..group.len() + 1].iter().map(|sign| char::from(*sign)));
    }
    signs
}

fn of_base_85(signs: &str) -> Result<Vec<u8>, Error> {
    let mut bytes = Vec::with_capacity(signs.len() / 5 * 4 + 4);
    for group in signs.as_bytes().chunks(5) {
        let mut number = 0;
        for place in 0..5 {
            // Missing digits at the end count as the greatest one, so that the bytes before them are exact.
            let sign = group.get(place).copied().unwrap_or(b'~');
            let digit = SIGNS.iter().position(|other| *other == sign).unwrap_or(0) as u64;
            number = number * 85 + digit;
        }
        let number = u32::try_from(number).unwrap_or(u32::MAX);
        bytes.extend(&number.to_be_bytes()[..group.len() - 1]);
    }
    // Each byte string has exactly one encoding: any other text is invalid.
    if base_85(&bytes) == signs {
        Ok(bytes)
    } else {
        Err(line::invalid(Part::Value, signs, "", Fault::Other("is none of base 85".into())))
    }
}

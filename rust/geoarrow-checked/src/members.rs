//! The members of an object of JSON, as the library writes one: without blanks between its parts. What is inside of its arrays and objects is read when it is
//! asked for, so nothing here is as deep as what is read.
use std::str::Chars;

/// The value of a member, or of an item of an array.
#[derive(Debug, PartialEq, Eq)]
pub(crate) enum Value<'a> {
    Text(String),
    Number(u64),
    /// An array, as it is written.
    Array(&'a str),
    /// Anything else, as it is written: an object, another number, `true`, `false` or `null`.
    Other(&'a str),
}

/// The members of an object, in their order, or `None` where the text is no such object.
pub(crate) fn members(object: &str) -> Option<Vec<(String, Value<'_>)>> {
    listed(object.strip_prefix('{')?, '}', |rest| {
        let key = text(rest)?;
        expect(rest, ':')?;
        Some((key, value(rest)?))
    })
}

/// The values of an array, in their order, or `None` where the text is no such array.
pub(crate) fn items(array: &str) -> Option<Vec<Value<'_>>> {
    listed(array.strip_prefix('[')?, ']', value)
}

/// What stands before a bracket that ends the text, with commas between.
fn listed<'a, T>(
    inside: &'a str,
    end: char,
    mut one: impl FnMut(&mut Chars<'a>) -> Option<T>,
) -> Option<Vec<T>> {
    let mut rest = inside.strip_suffix(end)?.chars();
    let mut found = Vec::new();
    if rest.as_str().is_empty() {
        return Some(found);
    }
    loop {
        found.push(one(&mut rest)?);
        if rest.as_str().is_empty() {
            return Some(found);
        }
        expect(&mut rest, ',')?;
    }
}

fn expect(rest: &mut Chars<'_>, wanted: char) -> Option<()> {
    (rest.next()? == wanted).then_some(())
}

fn value<'a>(rest: &mut Chars<'a>) -> Option<Value<'a>> {
    match rest.as_str().chars().next()? {
        '"' => text(rest).map(Value::Text),
        '[' => nested(rest).map(Value::Array),
        '{' => nested(rest).map(Value::Other),
        _ => simple(rest),
    }
}

/// The first of the rest, up to the bracket that ends it; those in texts are none.
fn nested<'a>(rest: &mut Chars<'a>) -> Option<&'a str> {
    let whole = rest.as_str();
    let mut level = 0_usize;
    loop {
        if rest.as_str().starts_with('"') {
            text(rest)?;
            continue;
        }
        level = match rest.next()? {
            '[' | '{' => level + 1,
            ']' | '}' => level - 1, // (the first is a bracket that opens, and at 0 this ends)
            _ => level,
        };
        if level == 0 {
            return whole.strip_suffix(rest.as_str());
        }
    }
}

/// A number, or one of the three words.
fn simple<'a>(rest: &mut Chars<'a>) -> Option<Value<'a>> {
    let whole = rest.as_str();
    let end = whole.find([',', ']', '}']).unwrap_or(whole.len());
    let (word, behind) = whole.split_at(end);
    *rest = behind.chars();
    if matches!(word, "true" | "false" | "null") {
        return Some(Value::Other(word));
    }
    let digits = word.strip_prefix('-').unwrap_or(word);
    let is_number =
        digits.starts_with(|it: char| it.is_ascii_digit()) && word.parse::<f64>().is_ok();
    let is_padded =
        digits.len() > 1 && digits.starts_with('0') && !digits[1..].starts_with(['.', 'e', 'E']);
    if !is_number || is_padded {
        return None;
    }
    Some(word.parse().map_or(Value::Other(word), Value::Number))
}

fn text(rest: &mut Chars<'_>) -> Option<String> {
    expect(rest, '"')?;
    let mut text = String::new();
    loop {
        text.push(match rest.next()? {
            '"' => return Some(text),
            '\\' => escaped(rest)?,
            '\0'..='\x1f' => return None,
            plain => plain,
        });
    }
}

/// The character of what stands behind a backslash.
fn escaped(rest: &mut Chars<'_>) -> Option<char> {
    Some(match rest.next()? {
        plain @ ('"' | '\\' | '/') => plain,
        'b' => '\x08',
        'f' => '\x0c',
        'n' => '\n',
        'r' => '\r',
        't' => '\t',
        'u' => return of_units(rest),
        _ => return None,
    })
}

/// The character of a unit of UTF-16, or of a surrogate with the second one behind it.
fn of_units(rest: &mut Chars<'_>) -> Option<char> {
    let first = unit(rest)?;
    if !(0xd800..0xdc00).contains(&first) {
        return char::from_u32(first.into()); // (the second surrogate alone is no character)
    }
    expect(rest, '\\')?;
    expect(rest, 'u')?;
    char::decode_utf16([first, unit(rest)?]).next()?.ok()
}

/// The number of four hexadecimal digits.
fn unit(rest: &mut Chars<'_>) -> Option<u16> {
    (0..4).try_fold(0, |before, _| {
        Some(before << 4 | rest.next()?.to_digit(16)? as u16)
    })
}

#[cfg(test)]
mod tests;

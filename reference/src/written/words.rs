//! Taking a line apart. Whatever does not fit is an error that names it.

use std::str::FromStr;

use crate::plan::PLAN_BYTES;

/// What stands before and after the first separator.
pub fn split<'a>(text: &'a str, separator: &str) -> Result<(&'a str, &'a str), String> {
    text.split_once(separator)
        .ok_or_else(|| format!("no `{separator}` in `{text}`"))
}

/// The same where the separator may be missing: then nothing stands after it.
pub fn split_if<'a>(text: &'a str, separator: &str) -> (&'a str, Option<&'a str>) {
    match text.split_once(separator) {
        Some((before, after)) => (before, Some(after)),
        None => (text, None),
    }
}

/// A number in digits that fits its type.
pub fn number<T: FromStr>(text: &str) -> Result<T, String> {
    let digits = !text.is_empty() && text.bytes().all(|byte| byte.is_ascii_digit());
    let value = text.parse().ok().filter(|_| digits);
    value.ok_or_else(|| format!("`{text}` is no number here"))
}

/// The numbers at each `#` of the pattern, if the text has the pattern's words.
pub fn numbers(pattern: &str, text: &str) -> Option<Vec<u32>> {
    let mut numbers = Vec::new();
    let mut words = text.split(' ');
    for due in pattern.split(' ') {
        let word = words.next()?;
        if due == "#" {
            numbers.push(number(word).ok()?);
        } else if due != word {
            return None;
        }
    }
    words.next().is_none().then_some(numbers)
}

/// The same for a pattern of which is known how many numbers it has.
pub fn matched<const N: usize>(pattern: &str, text: &str) -> Option<[u32; N]> {
    numbers(pattern, text)?.try_into().ok()
}

/// The bytes of the modules, `1 1 2 1, 2 2 1 2`, and zeros behind them.
pub fn plan(text: &str) -> Result<[u8; PLAN_BYTES], String> {
    let mut bytes = [0; PLAN_BYTES];
    let mut records = bytes.chunks_exact_mut(4);
    for module in text.split(", ") {
        let numbers = module
            .split(' ')
            .map(number)
            .collect::<Result<Vec<u8>, _>>()?;
        let record = records.next().ok_or("more than twelve modules")?;
        if numbers.len() != record.len() {
            return Err(format!("`{module}` is no module"));
        }
        record.copy_from_slice(&numbers);
    }
    Ok(bytes)
}

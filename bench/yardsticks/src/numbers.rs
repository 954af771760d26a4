//! Decimal numbers of network texts, exactly, in parts of a unit.

/// The most decimals of a number.
pub const DECIMALS: u32 = 6;

/// The whole multiples of a millionth that the word stands for.
pub fn millionths(word: &str) -> Result<u128, String> {
    let (digits, power) = split(word).ok_or_else(|| format!("{word} is no number"))?;
    let mut value = digits
        .parse::<u128>()
        .map_err(|_| format!("{word} is no number"))?;
    for _ in 0..power.max(0) {
        value = value
            .checked_mul(10)
            .ok_or_else(|| format!("{word} is too large"))?;
    }
    for _ in 0..(-power).max(0) {
        if value % 10 != 0 {
            return Err(format!("{word} is too fine"));
        }
        value /= 10;
    }
    Ok(value)
}

/// The digits of a number, and the power of ten by which they count millionths.
fn split(word: &str) -> Option<(String, i32)> {
    let (mantissa, exponent) = match word.find(['e', 'E']) {
        Some(at) => (&word[..at], word[at + 1..].parse::<i32>().ok()?),
        None => (word, 0),
    };
    let (whole, part) = mantissa.split_once('.').unwrap_or((mantissa, ""));
    Some((
        format!("{whole}{part}"),
        exponent - part.len() as i32 + DECIMALS as i32,
    ))
}

/// The least number of decimals in which each of these millionths is a whole number.
pub fn decimals_for(values: impl Iterator<Item = u128> + Clone) -> u32 {
    let fits = |decimals: &u32| {
        values
            .clone()
            .all(|value| value % 10u128.pow(DECIMALS - decimals) == 0)
    };
    (0..DECIMALS).find(fits).unwrap_or(DECIMALS)
}

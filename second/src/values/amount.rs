//! Numbers as 01 writes them: `10^9+1`, `-6*10^18`.

/// A sum of products of powers; None where the text is none.
pub fn whole(text: &str) -> Option<i128> {
    let signed = text.replace('-', "+-");
    let terms = signed.strip_prefix('+').unwrap_or(&signed);
    terms.split('+').map(product).sum()
}

/// A minus in front is the whole product's: -2^40 is no power of -2.
fn product(text: &str) -> Option<i128> {
    match text.strip_prefix('-') {
        Some(text) => product(text).map(|product| -product),
        None => text.split('*').map(power).product(),
    }
}

fn power(text: &str) -> Option<i128> {
    match text.split_once('^') {
        Some((base, exponent)) => digits(base)?.checked_pow(exponent.parse().ok()?),
        None => digits(text),
    }
}

/// Digits alone: the signs are read above.
fn digits(text: &str) -> Option<i128> {
    let only_digits = text.bytes().all(|byte| byte.is_ascii_digit());
    text.parse().ok().filter(|_| only_digits)
}

/// A number that fits what it is asked for.
pub fn number<T: TryFrom<i128>>(text: &str) -> Option<T> {
    T::try_from(whole(text)?).ok()
}

#[cfg(test)]
mod tests {
    use super::*;

    #[test]
    fn numbers_as_the_page_writes_them() {
        for (text, value) in [
            ("0", 0),
            ("-65500", -65_500),
            ("10^9+1", 1_000_000_001),
            ("-2^40-1", -(1 << 40) - 1),
            ("6*10^18-10^9+1", 5_999_999_999_000_000_001),
        ] {
            assert_eq!(whole(text), Some(value), "{text}");
        }
    }

    #[test]
    fn what_is_no_number() {
        for text in ["", "-", "1+", "--1", "1*", "2^", "^2", "2^-1", "1 2", "x"] {
            assert_eq!(whole(text), None, "{text}");
        }
        assert_eq!(number::<u32>("-1"), None);
    }
}

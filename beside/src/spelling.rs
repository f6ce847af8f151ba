//! How single words are spelled, and how files fall into lines and words.

const LONGEST_NAME: usize = 24;
const LONGEST_TEXT: usize = 16;

/// A number in its only spelling: no plus sign, no leading zero, no `-0`.
pub fn number(word: &[u8]) -> Option<i32> {
    let digits = word.strip_prefix(b"-").unwrap_or(word);
    let negative = digits.len() < word.len();
    let only_digits = !digits.is_empty() && digits.iter().all(u8::is_ascii_digit);
    let needless_zero = digits.first() == Some(&b'0') && (digits.len() > 1 || negative);
    if !only_digits || needless_zero {
        return None;
    }
    // What is left to fail here is the range.
    std::str::from_utf8(word).ok()?.parse().ok()
}

/// The name of a reading.
pub fn name(word: &[u8]) -> Option<&str> {
    letters(word, LONGEST_NAME, |byte| byte == b'/')
}

/// A text; the two words for booleans are never texts.
pub fn text(word: &[u8]) -> Option<&str> {
    letters(word, LONGEST_TEXT, |_| false).filter(|text| !matches!(*text, "true" | "false"))
}

fn letters(word: &[u8], longest: usize, extra: impl Fn(u8) -> bool) -> Option<&str> {
    let allowed = |&byte: &u8| matches!(byte, b'a'..=b'z' | b'0'..=b'9' | b'-') || extra(byte);
    let starts_well = word.first()?.is_ascii_lowercase();
    if !starts_well || word.len() > longest || !word.iter().all(allowed) {
        return None;
    }
    std::str::from_utf8(word).ok()
}

/// The first line without its end, and what follows it; none if the end lacks.
pub fn cut_line(bytes: &[u8]) -> Option<(&[u8], &[u8])> {
    let end = bytes.iter().position(|&byte| byte == b'\n')?;
    Some((&bytes[..end], &bytes[end + 1..]))
}

/// Each single space separates, so two in a row hold an empty word.
pub fn words(line: &[u8]) -> impl Iterator<Item = &[u8]> {
    line.split(|&byte| byte == b' ')
}

#[cfg(test)]
mod tests {
    use super::*;

    #[test]
    fn numbers_have_one_spelling() {
        for good in [0, 1, -1, 10, i32::MAX, i32::MIN] {
            assert_eq!(number(good.to_string().as_bytes()), Some(good));
        }
        let bad: [&[u8]; 16] = [
            b"",
            b"-",
            b"--1",
            b"+1",
            b"-0",
            b"00",
            b"01",
            b"-01",
            b"1 ",
            b"1a",
            b"a",
            b"1.0",
            b"2147483648",
            b"-2147483649",
            b"99999999999999999999",
            b"\xb2",
        ];
        for word in bad {
            assert_eq!(number(word), None, "{word:?}");
        }
    }

    #[test]
    fn names_and_texts_keep_their_limits() {
        let long = [b'a'; 25];
        assert!(name(&long[..24]).is_some() && name(&long).is_none());
        assert!(text(&long[..16]).is_some() && text(&long[..17]).is_none());
        assert!(name(b"sub/role").is_some() && text(b"sub/role").is_none());
        assert!(name(b"true").is_some() && text(b"true").is_none() && text(b"false").is_none());
        let bad: [&[u8]; 9] = [
            b"", b"-", b"-a", b"/a", b"1a", b"A", b"a_b", b"a\r", b"a\xe9",
        ];
        for word in bad {
            assert!(name(word).is_none() && text(word).is_none(), "{word:?}");
        }
    }

    #[test]
    fn lines_and_words_are_cut_at_every_separator() {
        assert_eq!(cut_line(b"a\n\nb"), Some((&b"a"[..], &b"\nb"[..])));
        assert_eq!(cut_line(b"a"), None);
        assert!(words(b"a  b ").eq([&b"a"[..], b"", b"b", b""]));
        assert!(words(b"").eq([b""]));
    }
}

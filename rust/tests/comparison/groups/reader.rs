//! A reader of literals of edition 2, from documents 01 and 02 and from nothing else.

/// Why there are no bytes: the literal ends within an escape, so that more of it could be good; or it is bad whatever follows.
#[derive(Debug, Clone, Copy, PartialEq, Eq)]
pub enum Bad {
    Cut,
    Ever,
}

/// What a literal stands for: `b` or not, a quote, what stands inside, and the same quote.
pub fn literal(text: &[u8]) -> Result<Vec<u8>, Bad> {
    let (in_bytes, quoted) = text.strip_prefix(b"b").map_or((false, text), |rest| (true, rest));
    match quoted {
        [quote @ (b'\'' | b'"'), inner @ .., last] if quote == last => inside(inner, *quote, in_bytes),
        _ => Err(Bad::Ever),
    }
}

/// What stands between the quotes.
pub fn inside(mut rest: &[u8], quote: u8, in_bytes: bool) -> Result<Vec<u8>, Bad> {
    let mut bytes = Vec::new();
    while let [first, tail @ ..] = rest {
        rest = match *first {
            b'\\' => escape(tail, in_bytes, &mut bytes)?,
            bare if bare == quote || in_bytes && !bare.is_ascii() => return Err(Bad::Ever),
            bare => {
                bytes.push(bare);
                tail
            }
        };
    }
    Ok(bytes)
}

/// The escape that starts behind a backslash: puts its bytes behind `bytes`, and gives what follows it.
fn escape<'a>(rest: &'a [u8], in_bytes: bool, bytes: &mut Vec<u8>) -> Result<&'a [u8], Bad> {
    let (letter, tail) = rest.split_first().ok_or(Bad::Cut)?;
    let (point, after) = match letter {
        b'a' => (7, tail),
        b'b' => (8, tail),
        b't' => (9, tail),
        b'n' => (10, tail),
        b'v' => (11, tail),
        b'f' => (12, tail),
        b'r' => (13, tail),
        b'\\' | b'\'' | b'"' => (u32::from(*letter), tail),
        b'0'..=b'7' => {
            let len = rest.iter().take(3).take_while(|digit| matches!(digit, b'0'..=b'7')).count();
            (value(&rest[..len], 8), &rest[len..])
        }
        b'x' => hexadecimal(tail, 2)?,
        b'u' if !in_bytes => hexadecimal(tail, 4)?,
        b'U' if !in_bytes => hexadecimal(tail, 8)?,
        _ => return Err(Bad::Ever),
    };
    if in_bytes {
        bytes.push(u8::try_from(point).map_err(|_| Bad::Ever)?);
    } else {
        // Surrogates and what is above 10FFFF are no characters.
        let character = char::from_u32(point).ok_or(Bad::Ever)?;
        bytes.extend_from_slice(character.encode_utf8(&mut [0; 4]).as_bytes());
    }
    Ok(after)
}

/// The value of so many hexadecimal digits, and what follows them.
fn hexadecimal(rest: &[u8], count: usize) -> Result<(u32, &[u8]), Bad> {
    match rest.iter().take(count).take_while(|digit| digit.is_ascii_hexdigit()).count() {
        len if len == count => Ok((value(&rest[..count], 16), &rest[count..])),
        len if len == rest.len() => Err(Bad::Cut),
        _ => Err(Bad::Ever),
    }
}

/// Digits of a base, which all are: at most eight, so that 32 bits hold them.
fn value(digits: &[u8], base: u32) -> u32 {
    digits.iter().fold(0, |sum, &digit| sum * base + char::from(digit).to_digit(base).unwrap_or(0))
}

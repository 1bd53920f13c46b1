//! Numbers in their spellings: zigzag, varints, characters of polylines, decimals.

pub fn zigzag(number: i64) -> u64 {
    (number << 1 ^ number >> 63) as u64
}

pub fn unzigzag(form: u64) -> i64 {
    (form >> 1) as i64 ^ -((form & 1) as i64)
}

pub fn put_varint(to: &mut Vec<u8>, mut number: u64) {
    while number >= 0x80 {
        to.push(number as u8 | 0x80);
        number >>= 7;
    }
    to.push(number as u8);
}

pub fn varint_len(number: u64) -> usize {
    (70 - (number | 1).leading_zeros() as usize) / 7
}

/// A varint at the front of these bytes, and how many bytes it has.
#[inline]
pub fn varint(bytes: &[u8]) -> Result<(u64, usize), &'static str> {
    let (mut number, mut length, mut shift) = (0, 0, 0);
    while let Some(&byte) = bytes.get(length) {
        number |= u64::from(byte & 0x7F) << shift;
        length += 1;
        if shift == 63 && byte > 1 {
            return Err("bad varint");
        }
        if byte < 0x80 {
            return Ok((number, length));
        }
        shift += 7;
    }
    Err("truncated")
}

pub fn put_polyline_number(to: &mut Vec<u8>, number: i64) {
    let mut form = zigzag(number);
    while form >= 0x20 {
        to.push((form as u8 & 0x1F | 0x20) + 63);
        form >>= 5;
    }
    to.push(form as u8 + 63);
}

/// The number at this place of a polyline, and the place behind it.
#[inline(always)]
pub fn polyline_number(text: &[u8], mut at: usize) -> Result<(i64, usize), &'static str> {
    let (mut form, mut shift) = (0u64, 0);
    while let Some(&unit) = text.get(at) {
        let group = unit.wrapping_sub(63);
        at += 1;
        form |= u64::from(group & 0x1F) << shift;
        if group < 0x20 {
            return match (shift, group) {
                (60, 16..) => Err("number too long"),
                (5.., 0) => Err("padded number"),
                _ => Ok((unzigzag(form), at)),
            };
        }
        if group > 63 {
            return Err("bad character");
        }
        shift += 5;
        if shift > 60 {
            return Err("number too long");
        }
    }
    Err("number cut short")
}

/// The number that this text is the canonical decimal of.
pub fn decimal(text: &[u8]) -> Option<u64> {
    let (&first, rest) = text.split_first()?;
    if first == b'0' && !rest.is_empty() {
        return None;
    }
    let mut number = 0u64;
    for &character in text {
        let digit = character.wrapping_sub(b'0');
        if digit > 9 {
            return None;
        }
        number = number.checked_mul(10)?.checked_add(u64::from(digit))?;
    }
    Some(number)
}

pub fn signed_decimal(text: &[u8]) -> Option<i64> {
    match text.strip_prefix(b"-") {
        None => i64::try_from(decimal(text)?).ok(),
        Some(digits) => {
            let size = decimal(digits)?;
            (size > 0 && size <= 1 << 63).then(|| (size as i64).wrapping_neg())
        }
    }
}

pub fn put_decimal(to: &mut Vec<u8>, mut number: u64) {
    if number < 10 {
        return to.push(b'0' + number as u8);
    }
    let mut digits = [0; 20];
    let mut first = digits.len();
    loop {
        first -= 1;
        digits[first] = b'0' + (number % 10) as u8;
        number /= 10;
        if number == 0 {
            break;
        }
    }
    to.extend_from_slice(&digits[first..]);
}

pub fn put_signed_decimal(to: &mut Vec<u8>, number: i64) {
    if number < 0 {
        to.push(b'-');
    }
    put_decimal(to, number.unsigned_abs());
}

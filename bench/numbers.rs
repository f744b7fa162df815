//! What the plain loops of both comparisons do with numbers.

pub fn mix(sum: u64, number: u64) -> u64 {
    sum.wrapping_mul(31).wrapping_add(number)
}

pub fn leb128(bytes: &[u8], at: &mut usize) -> Option<u64> {
    let (mut number, mut shift) = (0, 0);
    loop {
        let byte = *bytes.get(*at)?;
        if shift == 63 && byte > 1 {
            return None;
        }
        *at += 1;
        number |= u64::from(byte & 0x7f) << shift;
        if byte < 0x80 {
            return Some(number);
        }
        shift += 7;
    }
}

pub fn signed_leb128(bytes: &[u8], at: &mut usize) -> Option<i64> {
    let (mut number, mut shift) = (0, 0);
    loop {
        let byte = *bytes.get(*at)?;
        if shift == 63 && byte != 0 && byte != 0x7f {
            return None;
        }
        *at += 1;
        number |= i64::from(byte & 0x7f) << shift;
        shift += 7;
        if byte < 0x80 {
            let negative = byte & 0x40 != 0 && shift < 64;
            return Some(if negative { number | -1 << shift } else { number });
        }
    }
}

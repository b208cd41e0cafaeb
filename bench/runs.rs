//! A plain Rust loop over the same runs, the peer of `dk_bench runs`.
use std::env;
use std::fs;

fn varint(bytes: &[u8], at: &mut usize) -> Option<u64> {
    let mut number = 0u64;
    let mut shift = 0;
    loop {
        let byte = *bytes.get(*at)?;
        *at += 1;
        number |= u64::from(byte & 127) << shift;
        if byte < 128 {
            return Some(number);
        }
        shift += 7;
        if shift > 63 {
            return None;
        }
    }
}

fn decode(bytes: &[u8], width: u32, count: usize) -> Option<(Vec<u32>, usize)> {
    let mut values = Vec::new();
    let mut at = 0;
    let mask = ((1u64 << width) - 1) as u32;
    while values.len() < count {
        let header = varint(bytes, &mut at)?;
        let left = count - values.len();
        if header % 2 == 0 {
            let copies = (header / 2).min(left as u64) as usize;
            let mut value = 0u32;
            for i in 0..width.div_ceil(8) {
                value |= u32::from(*bytes.get(at)?) << (8 * i);
                at += 1;
            }
            values.resize(values.len() + copies, value);
        } else {
            let groups = (header / 2) as usize;
            let body = bytes.get(at..at + groups.checked_mul(width as usize)?)?;
            at += body.len();
            let count = left.min(groups * 8);
            values.reserve(count);
            let mut ahead = 0u64;
            let mut bits = 0;
            let mut next = 0;
            for _ in 0..count {
                while bits < width {
                    ahead |= u64::from(body[next]) << bits;
                    bits += 8;
                    next += 1;
                }
                values.push(ahead as u32 & mask);
                ahead >>= width;
                bits -= width;
            }
        }
    }
    Some((values, at))
}

fn main() {
    let words: Vec<String> = env::args().collect();
    let width = words[2].parse().unwrap();
    let count = words[3].parse().unwrap();
    let times = words[4].parse().unwrap();
    let bytes = fs::read(&words[5]).unwrap();
    let mut total = 0u64;
    for _ in 0..times {
        let (values, _used) = decode(std::hint::black_box(&bytes), width, count).unwrap();
        total += std::hint::black_box(&values).len() as u64;
    }
    println!("{total}");
}

//! Plans, rule tables and branch tables made into bytes: headers with exact offsets before the parts. Nothing is checked.

/// Little-endian 32-bit numbers, then the parts one after the other.
pub fn with_header(header: &[usize], parts: &[&[u8]]) -> Vec<u8> {
    let numbers = header.iter().flat_map(|&n| (n as u32).to_le_bytes());
    numbers.chain(parts.concat()).collect()
}

pub fn plan(labels: &[u8], kinds: &[u8]) -> Vec<u8> {
    let n = labels.len();
    with_header(&[n, 12, 12 + n], &[labels, kinds])
}

pub fn rules(s: usize, k: usize, leaf: &[u8], inner: &[u8], marks: &[u8]) -> Vec<u8> {
    with_header(&[s, k, 20, 20 + k, 20 + k + s * k * s], &[leaf, inner, marks])
}

pub fn branch(s: usize, k: usize, steps: &[u8], marks: &[u8]) -> Vec<u8> {
    with_header(&[s, k, 16, 16 + s * k], &[steps, marks])
}

//! SHA-256 (FIPS 180-4), written out so that no crate from outside is needed.

/// The digest of `bytes` as 64 hex digits.
pub fn hex_digest(bytes: &[u8]) -> String {
    let mut padded = bytes.to_vec();
    padded.push(0x80);
    while padded.len() % 64 != 56 {
        padded.push(0);
    }
    padded.extend((bytes.len() as u64 * 8).to_be_bytes());

    let mut state: Vec<u32> = primes().take(8).map(|prime| root(prime, 2)).collect();
    let round_constants: Vec<u32> = primes().take(64).map(|prime| root(prime, 3)).collect();
    for block in padded.chunks_exact(64) {
        compress(&mut state, block, &round_constants);
    }
    state.iter().map(|word| format!("{word:08x}")).collect()
}

fn compress(state: &mut [u32], block: &[u8], round_constants: &[u32]) {
    let words = block.chunks_exact(4);
    let mut w: Vec<u32> = words
        .map(|four| u32::from_be_bytes(four.try_into().expect("four bytes")))
        .collect();
    for t in 16..64 {
        let (a, b) = (w[t - 15], w[t - 2]);
        let small0 = a.rotate_right(7) ^ a.rotate_right(18) ^ (a >> 3);
        let small1 = b.rotate_right(17) ^ b.rotate_right(19) ^ (b >> 10);
        let sum = w[t - 16].wrapping_add(small0).wrapping_add(w[t - 7]);
        w.push(sum.wrapping_add(small1));
    }
    let mut v = state.to_vec();
    for t in 0..64 {
        let big1 = v[4].rotate_right(6) ^ v[4].rotate_right(11) ^ v[4].rotate_right(25);
        let choice = (v[4] & v[5]) ^ (!v[4] & v[6]);
        let big0 = v[0].rotate_right(2) ^ v[0].rotate_right(13) ^ v[0].rotate_right(22);
        let majority = (v[0] & v[1]) ^ (v[0] & v[2]) ^ (v[1] & v[2]);
        let first = [big1, choice, round_constants[t], w[t]]
            .iter()
            .fold(v[7], |sum, part| sum.wrapping_add(*part));
        v.rotate_right(1);
        v[4] = v[4].wrapping_add(first);
        v[0] = first.wrapping_add(big0).wrapping_add(majority);
    }
    for (word, change) in state.iter_mut().zip(v) {
        *word = word.wrapping_add(change);
    }
}

fn primes() -> impl Iterator<Item = u128> {
    (2u128..).filter(|n| (2..*n).all(|d| n % d != 0))
}

/// The first 32 bits after the point of the square (`power` 2) or cube root (3) of `n`.
fn root(n: u128, power: u32) -> u32 {
    let target = n << (32 * power);
    let mut found = 0u128;
    for bit in (0..38).rev() {
        let tried = found | (1 << bit);
        if tried.pow(power) <= target {
            found = tried;
        }
    }
    found as u32
}

//! Carrying a hash over bytes that follow.
//!
//! The hash is linear over GF(2) and a text starts at 0, so the hash of two parts
//! is the hash of the second xor the hash of the first carried over as many 0
//! bytes as the second has. That is a matrix of 32 columns for each number of
//! bytes; they are kept for multiples of a step.

use crate::crc_table::T;

/// Bytes of a step: 1,024 characters.
pub const STEP: usize = 2048;
/// A text has fewer steps than this.
pub const STEPS: usize = 64;

/// What each bit of a hash becomes.
type Matrix = [u32; 32];

/// For each number of steps.
static CARRY: [Matrix; STEPS] = matrices();

const fn matrices() -> [Matrix; STEPS] {
    let mut one_byte = [0; 32];
    let mut bit = 0;
    while bit < 32 {
        let hash: u32 = 1 << bit;
        one_byte[bit] = T[(hash & 255) as usize] ^ (hash >> 8);
        bit += 1;
    }
    let mut step = one_byte;
    let mut bytes = 1;
    while bytes < STEP {
        step = product(&step, &step);
        bytes *= 2;
    }
    let mut all = [[0; 32]; STEPS];
    let mut bit = 0;
    while bit < 32 {
        all[0][bit] = 1 << bit;
        bit += 1;
    }
    let mut steps = 1;
    while steps < STEPS {
        all[steps] = product(&step, &all[steps - 1]);
        steps += 1;
    }
    all
}

/// First one matrix, then the other.
const fn product(then: &Matrix, first: &Matrix) -> Matrix {
    let mut made = [0; 32];
    let mut bit = 0;
    while bit < 32 {
        made[bit] = applied(then, first[bit]);
        bit += 1;
    }
    made
}

#[inline]
const fn applied(matrix: &Matrix, hash: u32) -> u32 {
    let mut made = 0;
    let mut bit = 0;
    while bit < 32 {
        // All ones where the bit is set.
        made ^= matrix[bit] & 0u32.wrapping_sub(hash >> bit & 1);
        bit += 1;
    }
    made
}

/// A hash carried over so many steps.
#[inline]
pub fn carry(hash: u32, steps: usize) -> u32 {
    applied(&CARRY[steps], hash)
}

#[cfg(test)]
mod tests {
    use super::*;
    use crate::hash::hash_on;
    use crate::reading::Right;

    #[test]
    fn carried_over_zeros() {
        let zeros = vec![0; STEP * (STEPS - 1)];
        for hash in [0, 1, 0x8000_0000, 0x988b_d23b, u32::MAX] {
            for steps in [0, 1, 2, 31, STEPS - 1] {
                let right = hash_on(Right, hash, &zeros[..steps * STEP]);
                assert_eq!(carry(hash, steps), right, "{hash:08x} over {steps}");
            }
        }
    }
}

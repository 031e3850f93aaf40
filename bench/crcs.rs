//! CRC-16/IBM in several ways: from tables, by folding whole words as the library does it, and with PCLMULQDQ.
//! Bits come lowest first and the start is 0, so zeros before the first byte change nothing.

use crate::library;

/// One bit more: the state times x modulo x^16 + x^15 + x^2 + 1. Its lowest bit belongs to x^15, its highest to 1.
const fn shifted(c: u16) -> u16 {
    (c >> 1) ^ if c & 1 != 0 { 0xA001 } else { 0 }
}

/// The eight bytes from there on, the first of them lowest.
#[inline(always)]
fn word(data: &[u8], at: usize) -> u64 {
    let mut word = [0; 8];
    word.copy_from_slice(&data[at..at + 8]);
    u64::from_le_bytes(word)
}

// ---- tables

/// The CRC of each byte with so many zero bytes behind it.
static TABLES: [[u16; 256]; 16] = tables();

const fn tables() -> [[u16; 256]; 16] {
    let mut tables = [[0; 256]; 16];
    let mut byte = 0;
    while byte < 256 {
        let mut c = byte as u16;
        let mut bit = 0;
        while bit < 8 * 16 {
            c = shifted(c);
            bit += 1;
            if bit % 8 == 0 {
                tables[bit / 8 - 1][byte] = c;
            }
        }
        byte += 1;
    }
    tables
}

/// Goes on byte by byte, from one table.
fn bytewise(start: u16, data: &[u8]) -> u16 {
    data.iter().fold(start, |c, &b| (c >> 8) ^ TABLES[0][usize::from(c as u8 ^ b)])
}

/// Goes on with `N` bytes at a time, each from a table of its own; gives what is left over, too.
#[inline(always)]
fn slices<const N: usize>(start: u16, data: &[u8]) -> (u16, &[u8]) {
    let (mut c, slices) = (start, data.chunks_exact(N));
    let rest = slices.remainder();
    for b in slices {
        // the first eight as one word: read byte by byte, some runs take far longer than others
        let first = word(b, 0);
        let byte = |k: usize| if k < 8 { (first >> (8 * k)) as u8 } else { b[k] };
        let new = (2..N).fold(0, |new, k| new ^ TABLES[N - 1 - k][usize::from(byte(k))]);
        let old = c ^ first as u16;
        c = new ^ (TABLES[N - 1][usize::from(old as u8)] ^ TABLES[N - 2][usize::from(old >> 8)]);
    }
    (c, rest)
}

/// Slicing-by-8.
pub fn sliced(data: &[u8]) -> u16 {
    let (c, rest) = slices::<8>(0, data);
    bytewise(c, rest)
}

/// Slicing-by-16, and by 8 where that is left over.
pub fn sliced16(data: &[u8]) -> u16 {
    let (c, rest) = slices::<16>(0, data);
    let (c, rest) = slices::<8>(c, rest);
    bytewise(c, rest)
}

// ---- whole words, as the library folds them

/// From how many bytes on fifteen words go at a time; with `usize::MAX` they never do.
const FIFTEENS: usize = 240;

/// The words so far, folded: two words that have the same rest modulo x^15 + x + 1, and the sum of all words, whose
/// parity is the rest modulo x + 1. The CRC's polynomial is the product of the two; the powers below are modulo the
/// first.
struct Folded {
    high: u64,
    low: u64,
    sum: u64,
}

/// The part of a word times x^128 = x^16 + x^8 that goes over into the word before it, and the part that does not.
#[inline(always)]
fn up8(a: u64) -> u64 {
    (a << 56) ^ (a << 48)
}

#[inline(always)]
fn down8(a: u64) -> u64 {
    (a >> 8) ^ (a >> 16)
}

/// A word times x^64 = x^8 + x^4, again one word.
#[inline(always)]
fn fold(a: u64) -> u64 {
    let a = a ^ (a << 56) ^ (a << 60);
    (a >> 4) ^ (a >> 8)
}

impl Folded {
    /// Two words more.
    #[inline(always)]
    fn add(&mut self, first: u64, second: u64) {
        let high = self.high ^ up8(self.low);
        self.high = down8(high) ^ second;
        self.low = down8(self.low) ^ up8(high) ^ first;
    }

    /// The CRC with these words too, two at a time; the first by itself if they are odd.
    #[inline(always)]
    fn pairs(mut self, mut words: &[u8]) -> u16 {
        if words.len() % 16 != 0 {
            let first = word(words, 0);
            (self.low, self.high) = (fold(self.low) ^ self.high, first);
            self.sum ^= first;
            words = &words[8..];
        }
        for pair in words.chunks_exact(16) {
            let (first, second) = (word(pair, 0), word(pair, 8));
            self.add(first, second);
            self.sum ^= first ^ second;
        }
        self.narrow()
    }

    /// The CRC of a word and these words, fifteen at a time and the others in pairs: x^(15 * 64) = x^64 + 1.
    #[inline(never)]
    fn fifteens(head: u64, words: &[u8]) -> u16 {
        let (mut v, mut sum) = ([0; 15], head);
        v[14] = head;
        let steps = words.chunks_exact(8 * 15);
        let rest = steps.remainder();
        for step in steps {
            let first = v[0];
            for k in 0..15 {
                let word = word(step, 8 * k);
                sum ^= word;
                v[k] ^= word ^ if k < 14 { v[k + 1] } else { first };
            }
            v[13] ^= first;
        }
        let mut folded = Folded { low: 0, high: v[0], sum };
        for k in (1..15).step_by(2) {
            folded.add(v[k], v[k + 1]);
        }
        folded.pairs(rest)
    }

    /// The CRC: 64 bits to 32, to 16, by 16 on, and x^15 + x + 1 more where the parity is not that of the sum.
    #[inline(always)]
    fn narrow(self) -> u16 {
        let a = fold(self.low) ^ self.high;
        let low = a as u32;
        let low = low ^ (low << 28) ^ (low << 30);
        let a = (low >> 2) ^ (low >> 4) ^ (a >> 32) as u32;
        let low = a as u16;
        let low = low ^ (low << 14) ^ (low << 15);
        let a = (low >> 1) ^ (low >> 2) ^ (a >> 16) as u16;
        let a = a ^ (a << 14) ^ (a << 15);
        let c = (a >> 1) ^ (a >> 2);
        let odd = (u64::from(c) ^ self.sum).count_ones() % 2 == 1;
        c ^ if odd { 0xC001 } else { 0 }
    }
}

/// As the library: two words at a time, fifteen where there are many; under one word from a table.
pub fn folded(data: &[u8]) -> u16 {
    if data.len() < 8 {
        return bytewise(0, data);
    }
    // the bytes before the whole words, behind zeros
    let size = data.len() % 8;
    let head = (word(data, 0) << (56 - 8 * size)) << 8;
    let words = &data[size..];
    if data.len() >= FIFTEENS {
        return Folded::fifteens(head, words);
    }
    Folded { low: 0, high: head, sum: head }.pairs(words)
}

// ---- PCLMULQDQ

#[cfg(target_arch = "x86_64")]
mod carryless {
    use super::{bytewise, shifted, word};
    use std::arch::x86_64::*;

    /// x^n modulo the polynomial, as the high 16 of 64 bits that come lowest first.
    const fn power(n: u32) -> i64 {
        let (mut c, mut k) = (0x8000, 0);
        while k < n {
            c = shifted(c);
            k += 1;
        }
        (c as i64) << 48
    }

    /// What moves 128 bits on by `n`, for their first 64 and for the others. A product of words whose bits come lowest
    /// first is one bit further already.
    const fn distance(n: u32) -> (i64, i64) {
        (power(n + 64 - 1), power(n - 1))
    }
    /// By one block, by two, by four.
    const BY_128: (i64, i64) = distance(128);
    const BY_256: (i64, i64) = distance(256);
    const BY_512: (i64, i64) = distance(512);

    /// 64 digits of x^16 / P, P being the polynomial, from this one on; the first belongs to 1, the next to 1 / x.
    const fn digits(from: u32) -> i64 {
        let (mut digits, mut k) = (0, 0);
        while k < 64 {
            // the digit is 1 where the rest so far, times x, has an x^16
            digits |= ((power(15 + from + k) >> 48) & 1) << k;
            k += 1;
        }
        digits
    }
    /// The digits that count where 64 more bits follow, and where none do.
    const QUOTIENT: (i64, i64) = (digits(64), digits(0));

    #[inline]
    #[target_feature(enable = "pclmulqdq,sse4.1")]
    unsafe fn constant(k: (i64, i64)) -> __m128i {
        _mm_set_epi64x(k.1, k.0)
    }

    /// The sixteen bytes from there on.
    #[inline]
    #[target_feature(enable = "pclmulqdq,sse4.1")]
    unsafe fn block(data: &[u8], at: usize) -> __m128i {
        _mm_loadu_si128(data[at..at + 16].as_ptr().cast())
    }

    /// 128 bits moved on by this distance, and what stands there.
    #[inline]
    #[target_feature(enable = "pclmulqdq,sse4.1")]
    unsafe fn fold(a: __m128i, distance: (i64, i64), there: __m128i) -> __m128i {
        let k = constant(distance);
        let (first, last) = (_mm_clmulepi64_si128(a, k, 0x00), _mm_clmulepi64_si128(a, k, 0x11));
        _mm_xor_si128(_mm_xor_si128(first, there), last)
    }

    /// The CRC of 128 bits: the lowest 16 digits of their quotient by P, those times P, and again the lowest 16. The
    /// digits stand at the top of a product's low word, those of `over` at the top of its high one.
    #[inline]
    #[target_feature(enable = "pclmulqdq,sse4.1")]
    unsafe fn narrow(a: __m128i) -> u16 {
        let k = constant(QUOTIENT);
        let (over, first) = (_mm_clmulepi64_si128(a, k, 0x10), _mm_clmulepi64_si128(a, k, 0x00));
        let sum = _mm_xor_si128(first, _mm_clmulepi64_si128(a, k, 0x11));
        let sum = _mm_xor_si128(sum, _mm_unpackhi_epi64(over, over));
        let q = (_mm_cvtsi128_si64(sum) as u64 >> 48) as u16;
        q ^ (q >> 2) ^ (q >> 15)
    }

    /// The bytes before the whole blocks, 1 to 16, behind zeros; the data has at least 16.
    #[inline]
    #[target_feature(enable = "pclmulqdq,sse4.1")]
    unsafe fn head(data: &[u8], size: usize) -> __m128i {
        const PLACES: [u8; 32] = {
            let (mut places, mut k) = ([0x80; 32], 0);
            while k < 16 {
                places[16 + k] = k as u8;
                k += 1;
            }
            places
        };
        _mm_shuffle_epi8(block(data, 0), block(&PLACES, size))
    }

    /// A block and up to three more as one.
    #[inline]
    #[target_feature(enable = "pclmulqdq,sse4.1")]
    unsafe fn few(head: __m128i, more: &[u8]) -> __m128i {
        match more.len() / 16 {
            0 => head,
            1 => fold(head, BY_128, block(more, 0)),
            2 => fold(head, BY_256, fold(block(more, 0), BY_128, block(more, 16))),
            _ => {
                let last = fold(block(more, 16), BY_128, block(more, 32));
                fold(fold(head, BY_128, block(more, 0)), BY_256, last)
            }
        }
    }

    /// The CRC; 64 bytes at a time, as four blocks, and what they are not enough for goes first.
    #[target_feature(enable = "pclmulqdq,sse4.1")]
    pub unsafe fn crc(data: &[u8]) -> u16 {
        let n = data.len();
        if n < 8 {
            return bytewise(0, data);
        }
        if n < 16 {
            let first = (word(data, 0) << (8 * (15 - n))) << 8;
            return narrow(constant((first as i64, word(data, n - 8) as i64)));
        }
        let size = (n - 1) % 16 + 1;
        let (head, zero, blocks) = (head(data, size), _mm_setzero_si128(), &data[size..]);
        let (more, many) = blocks.split_at(blocks.len() % 64);
        if many.is_empty() {
            return narrow(few(head, more));
        }
        let mut x = match more.len() / 16 {
            0 => [zero, zero, zero, head],
            1 => [zero, zero, head, block(more, 0)],
            2 => [zero, head, block(more, 0), block(more, 16)],
            _ => [head, block(more, 0), block(more, 16), block(more, 32)],
        };
        for step in many.chunks_exact(64) {
            for k in 0..4 {
                x[k] = fold(x[k], BY_512, block(step, 16 * k));
            }
        }
        narrow(fold(fold(x[0], BY_128, x[1]), BY_256, fold(x[2], BY_128, x[3])))
    }
}

/// Whether there is PCLMULQDQ; asked once for each line, not by `multiplied`.
#[cfg(target_arch = "x86_64")]
pub fn multiplies() -> bool {
    is_x86_feature_detected!("pclmulqdq") && is_x86_feature_detected!("sse4.1")
}

/// With PCLMULQDQ. Only where `multiplies` says so.
#[cfg(target_arch = "x86_64")]
pub fn multiplied(data: &[u8]) -> u16 {
    unsafe { carryless::crc(data) }
}

#[cfg(not(target_arch = "x86_64"))]
pub fn multiplies() -> bool {
    false
}

/// There is no PCLMULQDQ here.
#[cfg(not(target_arch = "x86_64"))]
pub fn multiplied(data: &[u8]) -> u16 {
    folded(data)
}

/// A way to the CRC.
pub type Way = fn(&[u8]) -> u16;

/// All ways that there are here, the library's first.
pub fn ways() -> Vec<(&'static str, Way)> {
    let mut ways: Vec<(_, Way)> = vec![("library", library::crc)];
    ways.extend([("the same fold", folded as Way), ("slicing-by-8", sliced), ("slicing-by-16", sliced16)]);
    if multiplies() {
        ways.push(("PCLMULQDQ", multiplied));
    }
    ways
}

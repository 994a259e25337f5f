//! The sum of a program's bytes, modulo 65,536, in the forms that an ordinary program has for it. `speed/sums` counts each beside the
//! library's; the header test takes the one that is best over all sizes.

/// Bytes 8 to length-1, as far as the ROM has them.
pub fn body(rom: &[u8], length: u32) -> &[u8] {
    let end = rom.len().min(length as usize);
    rom.get(crate::FIRST_PLACE..end).unwrap_or(&[])
}

/// A plain loop. A sum that wraps at 16 bits is the sum modulo 65,536, and the compiler adds several bytes at once.
pub fn plain(bytes: &[u8]) -> u16 {
    bytes.iter().fold(0, |sum: u16, byte| sum.wrapping_add(u16::from(*byte)))
}

fn word(bytes: &[u8]) -> u64 {
    u64::from_le_bytes(bytes.try_into().unwrap())
}

/// Eight bytes at a time, in four lanes of 16 bits that are folded before they can run over: 128 times 510 is 65,280.
pub fn lanes(bytes: &[u8]) -> u16 {
    const LOW: u64 = 0x00FF_00FF_00FF_00FF;
    let words = bytes.chunks_exact(8);
    let rest = plain(words.remainder());
    let whole = &bytes[..bytes.len() - words.remainder().len()];
    whole.chunks(8 * 128).fold(rest, |sum, group| {
        let lanes = group.chunks_exact(8).fold(0, |lanes: u64, bytes| {
            let word = word(bytes);
            lanes + (word & LOW) + (word >> 8 & LOW)
        });
        let folded = (lanes & 0xFFFF) + (lanes >> 16 & 0xFFFF) + (lanes >> 32 & 0xFFFF) + (lanes >> 48);
        sum.wrapping_add(folded as u16)
    })
}

/// 64 bytes at a time, and a plain loop for what is left: the compiler unrolls the inner loop, and on x86-64 finds `psadbw` for it.
pub fn chunks(bytes: &[u8]) -> u16 {
    let chunks = bytes.chunks_exact(64);
    let rest = plain(chunks.remainder());
    chunks.fold(rest, |sum, chunk| sum.wrapping_add(plain(chunk)))
}

/// 128 bytes at a time, by halves, since a loop of 128 is not unrolled, and a plain loop for what is left.
pub fn pairs(bytes: &[u8]) -> u16 {
    let pairs = bytes.chunks_exact(128);
    let rest = plain(pairs.remainder());
    pairs.fold(rest, |sum, pair| {
        let (front, back) = pair.split_at(64);
        sum.wrapping_add(plain(front)).wrapping_add(plain(back))
    })
}

/// As the library does it: from the end down, 128 bytes at a time, and what is left by 64, 32, 16, 8, 4, 2 and 1. By a macro, since of a
/// function for each size the compiler makes a loop of single bytes.
pub fn halves(bytes: &[u8]) -> u16 {
    let (mut sum, mut left) = (0u16, bytes);
    macro_rules! add {
        ($size:expr) => {
            let (front, back) = left.split_at(left.len() - $size);
            sum = sum.wrapping_add(plain(back));
            left = front;
        };
    }
    macro_rules! take {
        ($($size:expr),*) => { $(if $size <= left.len() {
            add!($size);
        })* };
    }
    if 16 <= left.len() {
        while 128 <= left.len() {
            add!(64);
            add!(64);
        }
        take!(64, 32, 16);
    }
    if !left.is_empty() {
        take!(8, 4, 2);
        sum = sum.wrapping_add(plain(left));
    }
    sum
}

/// With the processor's own instruction by name and a vector of two sums carried along, 128 bytes at a time: no plain form, and for one
/// processor alone.
#[cfg(target_arch = "x86_64")]
#[allow(unsafe_code)]
pub fn by_hand(bytes: &[u8]) -> u16 {
    use std::arch::x86_64::*;
    // every x86-64 has SSE2, and 16 bytes can be read wherever they lie
    unsafe {
        let zero = _mm_setzero_si128();
        let with = |sums, bytes: &[u8]| _mm_add_epi64(sums, _mm_sad_epu8(_mm_loadu_si128(bytes.as_ptr().cast()), zero));
        let blocks = bytes.chunks_exact(128);
        let vectors = blocks.remainder().chunks_exact(16);
        let rest = plain(vectors.remainder());
        let sums = blocks.fold(zero, |sums, block| block.chunks_exact(16).fold(sums, with));
        let sums = vectors.fold(sums, with);
        let folded = _mm_add_epi64(sums, _mm_unpackhi_epi64(sums, sums));
        rest.wrapping_add(_mm_cvtsi128_si32(folded) as u16)
    }
}

#[cfg(not(target_arch = "x86_64"))]
pub fn by_hand(bytes: &[u8]) -> u16 {
    halves(bytes)
}

/// No sum: every byte is read, eight at a time, and next to nothing done with it. What memory itself costs.
pub fn read(bytes: &[u8]) -> u16 {
    let words = bytes.chunks_exact(8);
    let rest = u64::from(plain(words.remainder()));
    words.fold(rest, |all, bytes| all ^ word(bytes)) as u16
}

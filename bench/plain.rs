// SHA-256 in plain Rust, as crates/sha256 has it (the message schedule four words at a time, in a loop over the constants) and
// in the usual way, word by word in a straight line.
use std::arch::x86_64::*;

#[rustfmt::skip]
static K: [u32; 64] = [
    0x428a_2f98, 0x7137_4491, 0xb5c0_fbcf, 0xe9b5_dba5, 0x3956_c25b, 0x59f1_11f1, 0x923f_82a4, 0xab1c_5ed5,
    0xd807_aa98, 0x1283_5b01, 0x2431_85be, 0x550c_7dc3, 0x72be_5d74, 0x80de_b1fe, 0x9bdc_06a7, 0xc19b_f174,
    0xe49b_69c1, 0xefbe_4786, 0x0fc1_9dc6, 0x240c_a1cc, 0x2de9_2c6f, 0x4a74_84aa, 0x5cb0_a9dc, 0x76f9_88da,
    0x983e_5152, 0xa831_c66d, 0xb003_27c8, 0xbf59_7fc7, 0xc6e0_0bf3, 0xd5a7_9147, 0x06ca_6351, 0x1429_2967,
    0x27b7_0a85, 0x2e1b_2138, 0x4d2c_6dfc, 0x5338_0d13, 0x650a_7354, 0x766a_0abb, 0x81c2_c92e, 0x9272_2c85,
    0xa2bf_e8a1, 0xa81a_664b, 0xc24b_8b70, 0xc76c_51a3, 0xd192_e819, 0xd699_0624, 0xf40e_3585, 0x106a_a070,
    0x19a4_c116, 0x1e37_6c08, 0x2748_774c, 0x34b0_bcb5, 0x391c_0cb3, 0x4ed8_aa4a, 0x5b9c_ca4f, 0x682e_6ff3,
    0x748f_82ee, 0x78a5_636f, 0x84c8_7814, 0x8cc7_0208, 0x90be_fffa, 0xa450_6ceb, 0xbef9_a3f7, 0xc671_78f2,
];

#[derive(Clone, Copy)]
pub struct Hash {
    pub a: u32,
    pub b: u32,
    pub c: u32,
    pub d: u32,
    pub e: u32,
    pub f: u32,
    pub g: u32,
    pub h: u32,
}

pub fn start() -> Hash {
    Hash {
        a: 0x6a09_e667,
        b: 0xbb67_ae85,
        c: 0x3c6e_f372,
        d: 0xa54f_f53a,
        e: 0x510e_527f,
        f: 0x9b05_688c,
        g: 0x1f83_d9ab,
        h: 0x5be0_cd19,
    }
}

fn one_round(s: Hash, kw: u32) -> Hash {
    let choose = s.g ^ (s.e & (s.f ^ s.g));
    let majority = s.b ^ ((s.a ^ s.b) & (s.b ^ s.c));
    let sigma1 = s.e.rotate_right(6) ^ s.e.rotate_right(11) ^ s.e.rotate_right(25);
    let sigma0 = s.a.rotate_right(2) ^ s.a.rotate_right(13) ^ s.a.rotate_right(22);
    let t1 = s.h.wrapping_add(sigma1).wrapping_add(choose).wrapping_add(kw);
    let t2 = sigma0.wrapping_add(majority);
    Hash {
        a: t1.wrapping_add(t2),
        b: s.a,
        c: s.b,
        d: s.c,
        e: s.d.wrapping_add(t1),
        f: s.e,
        g: s.f,
        h: s.g,
    }
}

fn sum(s: Hash, t: Hash) -> Hash {
    Hash {
        a: s.a.wrapping_add(t.a),
        b: s.b.wrapping_add(t.b),
        c: s.c.wrapping_add(t.c),
        d: s.d.wrapping_add(t.d),
        e: s.e.wrapping_add(t.e),
        f: s.f.wrapping_add(t.f),
        g: s.g.wrapping_add(t.g),
        h: s.h.wrapping_add(t.h),
    }
}

// ---- four words at a time; SSE2 is a part of every x86-64

macro_rules! rotate {
    ($x:expr, $n:literal) => {
        _mm_or_si128(_mm_srli_epi32::<$n>($x), _mm_slli_epi32::<{ 32 - $n }>($x))
    };
}

unsafe fn small_sigma0(x: __m128i) -> __m128i {
    _mm_xor_si128(_mm_xor_si128(rotate!(x, 7), rotate!(x, 18)), _mm_srli_epi32::<3>(x))
}

unsafe fn small_sigma1(x: __m128i) -> __m128i {
    _mm_xor_si128(_mm_xor_si128(rotate!(x, 17), rotate!(x, 19)), _mm_srli_epi32::<10>(x))
}

// The last three lanes of one vector and the first of the next.
unsafe fn from_1(x: __m128i, y: __m128i) -> __m128i {
    _mm_or_si128(_mm_srli_si128::<4>(x), _mm_slli_si128::<12>(y))
}

unsafe fn next_words(w: [__m128i; 4]) -> __m128i {
    let [w0, w4, w8, w12] = w;
    let sums = _mm_add_epi32(_mm_add_epi32(w0, small_sigma0(from_1(w0, w4))), from_1(w8, w12));
    let first = _mm_add_epi32(sums, small_sigma1(_mm_unpackhi_epi64(w12, w12)));
    let last = _mm_add_epi32(sums, small_sigma1(_mm_unpacklo_epi64(first, first)));
    _mm_castpd_si128(_mm_shuffle_pd::<2>(_mm_castsi128_pd(first), _mm_castsi128_pd(last)))
}

pub fn compress_vectors(hash: Hash, block: &[u32]) -> Hash {
    let quarter = |i: usize| -> [u32; 4] { std::array::from_fn(|j| block[4 * i + j].swap_bytes()) };
    unsafe {
        let load = |words: &[u32]| _mm_loadu_si128(words.as_ptr().cast());
        let mut window = [load(&quarter(0)), load(&quarter(1)), load(&quarter(2)), load(&quarter(3))];
        let mut t = hash;
        for i in 0..16 {
            let mut kw = [0; 4];
            _mm_storeu_si128(kw.as_mut_ptr().cast(), _mm_add_epi32(load(&K[4 * i..4 * i + 4]), window[0]));
            t = one_round(t, kw[0]);
            t = one_round(t, kw[1]);
            t = one_round(t, kw[2]);
            t = one_round(t, kw[3]);
            window = [window[1], window[2], window[3], next_words(window)];
        }
        sum(hash, t)
    }
}

// ---- word by word

fn turn(hash: Hash, window: [u32; 16], k: u32) -> (Hash, [u32; 16]) {
    let [w0, w1, w2, w3, w4, w5, w6, w7, w8, w9, w10, w11, w12, w13, w14, w15] = window;
    let sigma1 = w14.rotate_right(17) ^ w14.rotate_right(19) ^ (w14 >> 10);
    let sigma0 = w1.rotate_right(7) ^ w1.rotate_right(18) ^ (w1 >> 3);
    let w16 = sigma1.wrapping_add(w9).wrapping_add(sigma0).wrapping_add(w0);
    let moved = [w1, w2, w3, w4, w5, w6, w7, w8, w9, w10, w11, w12, w13, w14, w15, w16];
    (one_round(hash, k.wrapping_add(w0)), moved)
}

macro_rules! turns {
    ($t:expr, $window:expr, $from:literal: $($i:literal)*) => {{
        let (mut t, mut window) = ($t, $window);
        $((t, window) = turn(t, window, K[$from + $i]);)*
        (t, window)
    }};
}

pub fn compress_words(hash: Hash, block: &[u32]) -> Hash {
    let window = std::array::from_fn(|i| block[i].swap_bytes());
    let (t, window) = turns!(hash, window, 0: 0 1 2 3 4 5 6 7 8 9 10 11 12 13 14 15);
    let (t, window) = turns!(t, window, 16: 0 1 2 3 4 5 6 7 8 9 10 11 12 13 14 15);
    let (t, window) = turns!(t, window, 32: 0 1 2 3 4 5 6 7 8 9 10 11 12 13 14 15);
    let (t, _) = turns!(t, window, 48: 0 1 2 3 4 5 6 7 8 9 10 11 12 13 14 15);
    sum(hash, t)
}

// ---- whole pages

// The digest after so many whole blocks as eight words, the low byte of each first.
pub fn digest(compress: impl Fn(Hash, &[u32]) -> Hash, hash: Hash, blocks: u64) -> [u32; 8] {
    let bits = blocks.wrapping_mul(512);
    let mut last = [0; 16];
    last[0] = 0x80;
    last[14] = ((bits >> 32) as u32).swap_bytes();
    last[15] = (bits as u32).swap_bytes();
    let t = compress(hash, &last);
    [t.a, t.b, t.c, t.d, t.e, t.f, t.g, t.h].map(u32::swap_bytes)
}

// The digest of pages.
pub fn name(compress: impl Fn(Hash, &[u32]) -> Hash, pages: &[[u32; 1024]]) -> [u32; 8] {
    let mut hash = start();
    for page in pages {
        for i in 0..64 {
            hash = compress(hash, &page[16 * i..16 * i + 16]);
        }
    }
    digest(compress, hash, 64 * pages.len() as u64)
}

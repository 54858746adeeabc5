//! The measure for `fixed_log_speed`: the same two procedures, with no proof, in Rust as one would write them for speed,
//! and the same report. It was written from the description of the procedures in `fixed_log/specs`.
//!
//! `rustc -O yardstick.rs && ./yardstick`

use std::time::Instant;

const CALLS: u32 = 1_000_000;

/// Entry `i` is `2^(62 + i) * atanh(2^-(i + 1)) * log2(e)`, rounded; the last entry stands for all that follow.
const ATANH_LOG2: [i64; 32] = [
    0x32B8_0347_3F7A_D0F4,
    0x2F2A_71BD_4E25_E916,
    0x2E68_B244_BB93_BA06,
    0x2E39_FB91_98CE_62E4,
    0x2E2E_683F_6856_5C8F,
    0x2E2B_850B_E207_7FC1,
    0x2E2A_CC58_FE7B_78DB,
    0x2E2A_9E2D_E52F_D5F2,
    0x2E2A_92A3_38D5_3EEC,
    0x2E2A_8FC0_8F5E_19B6,
    0x2E2A_8F07_E51A_485E,
    0x2E2A_8ED9_BA8A_F388,
    0x2E2A_8ECE_2FE7_384A,
    0x2E2A_8ECB_4D3E_4B1A,
    0x2E2A_8ECA_9494_0FE8,
    0x2E2A_8ECA_6669_811D,
    0x2E2A_8ECA_5ADE_DD6A,
    0x2E2A_8ECA_57FC_347E,
    0x2E2A_8ECA_5743_8A43,
    0x2E2A_8ECA_5715_5FB4,
    0x2E2A_8ECA_5709_D510,
    0x2E2A_8ECA_5706_F267,
    0x2E2A_8ECA_5706_39BD,
    0x2E2A_8ECA_5706_0B92,
    0x2E2A_8ECA_5706_0008,
    0x2E2A_8ECA_5705_FD25,
    0x2E2A_8ECA_5705_FC6C,
    0x2E2A_8ECA_5705_FC3E,
    0x2E2A_8ECA_5705_FC33,
    0x2E2A_8ECA_5705_FC30,
    0x2E2A_8ECA_5705_FC2F,
    0x2E2A_8ECA_5705_FC2F,
];

fn angle(i: usize) -> i64 {
    ATANH_LOG2[i.min(31)]
}

/// `-b` where the flag is set, else `b`, without a branch.
fn signed(negative: bool, b: i64) -> i64 {
    let mask = -i64::from(negative);
    (b ^ mask) - mask
}

/// The turns from `first` to just before `end`, each of which doubles what is left, but for the last one where `ends` is set.
#[inline(always)]
fn exponential_turns(value: &mut i64, left: &mut i64, first: usize, end: usize, ends: bool) {
    for i in first..end {
        let back = *left < 0;
        *value += signed(back, *value >> (i + 1));
        *left -= signed(back, angle(i));
        if i + 1 < end || !ends {
            *left <<= 1;
        }
    }
}

/// The same for the low bits, where the high ones stay as they are.
#[inline(always)]
fn low_turns(high: i64, low: &mut i64, left: &mut i64, first: usize, end: usize) {
    for i in first..end {
        let back = *left < 0;
        *low += signed(back, high >> i);
        *left -= signed(back, angle(i));
        if i + 1 < end {
            *left <<= 1;
        }
    }
}

fn bexp64(log: i64) -> i64 {
    if log < 0 {
        return 0;
    }
    let whole = log >> 57;
    if whole >= 63 {
        return i64::MAX;
    }
    let fraction = log - (whole << 57);
    let mut value = 1 << 62;
    if fraction != 0 {
        let mut left = fraction << 5;
        value = 0x26A3_D0E4_01DD_846D;
        exponential_turns(&mut value, &mut left, 0, 4, true);
        exponential_turns(&mut value, &mut left, 3, 13, true);
        exponential_turns(&mut value, &mut left, 12, 32, false);
        let mut low = 0;
        if whole > 30 {
            low_turns(value, &mut low, &mut left, 32, 40);
            low_turns(value, &mut low, &mut left, 39, 61);
        }
        value = (value << 1) + low;
    }
    if whole < 62 {
        ((value >> (61 - whole)) + 1) >> 1
    } else {
        value
    }
}

/// The turns from `first` to just before `end`.
#[inline(always)]
fn logarithm_turns(cosh: &mut i64, sinh: &mut i64, log: &mut i64, first: usize, end: usize) {
    for i in first..end {
        let back = *sinh < 0;
        *log += signed(back, angle(i) >> i);
        let fall = *sinh >> (i + 1);
        *sinh -= signed(back, *cosh >> (i + 1));
        *cosh -= signed(back, fall);
    }
}

fn blog64(n: i64) -> i64 {
    if n <= 0 {
        return -1;
    }
    let whole = 63 - i64::from(n.leading_zeros());
    let w = if whole > 61 {
        n >> (whole - 61)
    } else {
        n << (61 - whole)
    };
    let mut log = 0;
    if w & (w - 1) != 0 {
        let mut cosh = w + (1 << 61);
        let mut sinh = w - (1 << 61);
        logarithm_turns(&mut cosh, &mut sinh, &mut log, 0, 4);
        logarithm_turns(&mut cosh, &mut sinh, &mut log, 3, 13);
        logarithm_turns(&mut cosh, &mut sinh, &mut log, 12, 40);
        logarithm_turns(&mut cosh, &mut sinh, &mut log, 39, 62);
        log = (log + 8) >> 4;
    }
    (whole << 57) + log
}

/// The next number of Marsaglia's xorshift.
fn next(seed: u64) -> u64 {
    let seed = seed ^ (seed << 13);
    let seed = seed ^ (seed >> 7);
    seed ^ (seed << 17)
}

fn report(name: &str, call: impl Fn(i64) -> i64) {
    let start = Instant::now();
    let mut seed = 0x9E37_79B9_7F4A_7C15;
    let mut sum = 0u64;
    for _ in 0..CALLS {
        seed = next(seed);
        sum = sum.wrapping_add(call((seed >> 1) as i64).cast_unsigned());
    }
    println!(
        "{name}: {} ns a call, sum {sum}",
        start.elapsed().as_nanos() / u128::from(CALLS)
    );
}

fn main() {
    report("bexp64", bexp64);
    report("blog64", blog64);
}

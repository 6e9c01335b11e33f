//! Rust's `count_ones` over plain words, built for several machines.

/// The loop itself; the functions below only say what it is built for.
#[inline(always)]
fn sum_of_ones(words: &[u32]) -> u32 {
    words.iter().map(|word| word.count_ones()).sum()
}

/// Built for the target of the whole program.
#[inline(never)]
pub fn count_ones(words: &[u32]) -> u32 {
    sum_of_ones(words)
}

#[cfg(target_arch = "x86_64")]
mod machines {
    use super::sum_of_ones;

    #[target_feature(enable = "popcnt")]
    #[inline(never)]
    pub fn popcnt(words: &[u32]) -> u32 {
        sum_of_ones(words)
    }

    #[target_feature(enable = "avx2,popcnt")]
    #[inline(never)]
    pub fn avx2(words: &[u32]) -> u32 {
        sum_of_ones(words)
    }

    #[target_feature(enable = "avx512f,avx512vpopcntdq")]
    #[inline(never)]
    pub fn avx512(words: &[u32]) -> u32 {
        sum_of_ones(words)
    }
}

pub type Count = fn(&[u32]) -> u32;

/// Every build of the loop that this machine can run, with its name; the program's own first.
pub fn builds() -> Vec<(&'static str, Count)> {
    let mut all: Vec<(&'static str, Count)> = vec![("count_ones", count_ones)];
    // SAFETY: each is called on a machine that has its instructions.
    #[cfg(target_arch = "x86_64")]
    {
        if is_x86_feature_detected!("popcnt") {
            all.push(("for popcnt", |words| unsafe { machines::popcnt(words) }));
        }
        if is_x86_feature_detected!("popcnt") && is_x86_feature_detected!("avx2") {
            all.push(("for avx2", |words| unsafe { machines::avx2(words) }));
        }
        if is_x86_feature_detected!("avx512f") && is_x86_feature_detected!("avx512vpopcntdq") {
            all.push(("for avx512", |words| unsafe { machines::avx512(words) }));
        }
    }
    all
}

//! What of the processor products may depend on, so that machines which differ in it can share a cache.

/// The instructions that this processor has, of those by which the C library's libm chooses its code. cicc
/// has libm compute constants: `cos(8.1764856122660277)` is another number without FMA.
#[cfg(target_arch = "x86_64")]
pub fn instructions() -> String {
    use std::arch::is_x86_feature_detected as has;
    // AMD's processors before those with AVX2 have FMA4, of which nothing else tells.
    let has_fma4 = has!("avx") && has!("sse4a") && !has!("avx2");
    let all = [("sse4.1", has!("sse4.1")), ("avx2", has!("avx2")), ("fma", has!("fma")), ("fma4", has_fma4)];
    all.into_iter().filter(|(_, is_there)| *is_there).map(|(name, _)| name).collect::<Vec<_>>().join(" ")
}

/// Nothing: libm has one code for all others.
#[cfg(not(target_arch = "x86_64"))]
pub fn instructions() -> String {
    String::new()
}

#[cfg(test)]
mod tests {
    use super::*;
    use std::fs;

    #[test]
    fn they_are_those_that_the_kernel_names() {
        let told = fs::read_to_string("/proc/cpuinfo").unwrap();
        let flags: Vec<&str> = told
            .lines()
            .find(|line| line.starts_with("flags"))
            .map_or(Vec::new(), |line| line.split_whitespace().collect());
        let named = [("sse4_1", "sse4.1"), ("avx2", "avx2"), ("fma", "fma"), ("fma4", "fma4")];
        let wanted: Vec<&str> =
            named.into_iter().filter(|(flag, _)| flags.contains(flag)).map(|(_, name)| name).collect();
        assert_eq!(instructions(), wanted.join(" "));
    }
}

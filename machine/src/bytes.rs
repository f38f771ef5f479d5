//! Texts that are sought in others.

/// So many places of a text are looked at together, because a loop of a fixed length becomes a few
/// instructions for sixteen bytes each.
const BLOCK: usize = 64;
/// Bytes of programs, the most frequent ones first: a rare byte of what is sought is looked for, since a
/// frequent one would be found on each line.
const FREQUENT: &[u8] = b" _etnriaosdclupfmh,()\ngbv0xyTk:\"qw1;2*=";

/// How rare bytes are: what isn't among the frequent ones is rarest.
const RANKS: [usize; 256] = {
    let (mut ranks, mut place) = ([FREQUENT.len(); 256], 0);
    while place < FREQUENT.len() {
        ranks[FREQUENT[place] as usize] = place;
        place += 1;
    }
    ranks
};

/// Whether two bytes stand at one place of two blocks. The compiler has a processor look at sixteen places at
/// once.
fn have_pair(here: &[u8; BLOCK], there: &[u8; BLOCK], first: u8, second: u8) -> bool {
    let both = |(one, other): (&u8, &u8)| u8::from(*one == first) & u8::from(*other == second);
    here.iter().zip(there).map(both).fold(0, |any, one| any | one) != 0
}

/// The places of a byte that has another so many places behind it.
pub fn pairs(text: &[u8], first: u8, second: u8, distance: usize) -> impl Iterator<Item = usize> {
    let (mut place, ahead) = (0, text.get(distance..).unwrap_or_default());
    std::iter::from_fn(move || {
        while place < ahead.len() {
            if let (Some(here), Some(there)) = (text[place..].first_chunk(), ahead[place..].first_chunk()) {
                if !have_pair(here, there, first, second) {
                    place += BLOCK;
                    continue;
                }
            }
            let end = ahead.len().min(place + BLOCK);
            let found = (place..end).find(|&at| text[at] == first && ahead[at] == second);
            place = found.map_or(end, |at| at + 1);
            if found.is_some() {
                return found;
            }
        }
        None
    })
}

/// Where a text begins in another, at the earliest. An empty one is nowhere.
pub fn find(text: &[u8], sought: &[u8]) -> Option<usize> {
    let rarest =
        |places: std::ops::Range<usize>| places.max_by_key(|&place| RANKS[usize::from(sought[place])]);
    let one = rarest(0..sought.len())?;
    let other = rarest(0..one)
        .into_iter()
        .chain(rarest(one + 1..sought.len()))
        .max_by_key(|&place| RANKS[usize::from(sought[place])]);
    let (begin, end) = (one.min(other.unwrap_or(one)), one.max(other.unwrap_or(one)));
    let begins = pairs(text.get(begin..)?, sought[begin], sought[end], end - begin);
    begins.take_while(|at| at + sought.len() <= text.len()).find(|&at| text[at..].starts_with(sought))
}

/// Whether a text has another in it.
pub fn contains(text: &[u8], sought: &[u8]) -> bool {
    find(text, sought).is_some()
}

#[cfg(test)]
mod tests {
    use super::*;

    #[test]
    fn texts_are_found_where_they_begin() {
        let cases: [(&str, &str, Option<usize>); 9] = [
            ("abcabd", "abd", Some(3)),
            ("aaab", "aab", Some(1)),
            ("abab", "abab", Some(0)),
            ("aba", "abab", None),
            ("", "a", None),
            ("abc", "", None),
            ("xxabxab", "ab", Some(2)),
            ("zzzzzzzzzzza", "a", Some(11)),
            ("/t/x/t/y", "/t/y", Some(4)),
        ];
        for (text, sought, wanted) in cases {
            assert_eq!(find(text.as_bytes(), sought.as_bytes()), wanted, "{sought} in {text}");
        }
    }

    #[test]
    fn texts_of_any_size_are_searched_as_a_whole() {
        let text: Vec<u8> =
            (0_u32..700).map(|number| b"ab_#"[(number.wrapping_mul(2_654_435_761) >> 30) as usize]).collect();
        for size in 1..9 {
            for (begin, sought) in text.windows(size).enumerate() {
                let from = begin.saturating_sub(200);
                let wanted = text[from..].windows(size).position(|window| window == sought);
                assert_eq!(find(&text[from..], sought), wanted, "{begin}, {size}");
                assert_eq!(
                    find(&text[..begin + size - 1], sought),
                    text[..begin + size - 1].windows(size).position(|window| window == sought)
                );
            }
        }
        for (end, distance) in (0..text.len()).zip((0..80).cycle()) {
            let wanted = (0..end.saturating_sub(distance))
                .filter(|&place| text[place] == b'#' && text[place + distance] == b'_');
            assert!(pairs(&text[..end], b'#', b'_', distance).eq(wanted), "{end}, {distance}");
        }
    }
}

//! Facts about geometry, for every B, w, d, G and h.

use crate::generate::with_fewest_slots;
use crate::geometry::Geometry;

/// Every legal geometry: 4S + 8 is at most 8,192, S is below 2,048, and the
/// longest legal store has 288,524 words. A geometry that only lacks slots would
/// not be counted as legal, so the sums are made here once more.
#[test]
fn every_legal_geometry() {
    let (mut legal, mut tried, mut longest, mut most_s) = (0, 0, 0, 0);
    for b in 2..=16u64 {
        for w in 1..=16u64 {
            for d in 2..=16u64 {
                for g in 2..=10u64 {
                    for h in 1..=3u32 {
                        tried += 1;
                        let k = |i: u32| w * d * g.pow(i);
                        let s: u64 = (1..=h).map(k).sum();
                        let above: u64 = (0..h).map(k).sum();
                        let limit = (4 * b * k(h) / 5) as i64 - (b * above) as i64;
                        let kept = k(h) <= 1024 && limit >= 1;
                        let five = [b, w, d, g, h as u64].map(|n| n as usize);
                        let fewest = with_fewest_slots(five);
                        assert_eq!(fewest.is_some(), kept, "{five:?}");
                        if !kept {
                            continue;
                        }
                        legal += 1;
                        assert!(4 * s + 8 <= 8192 && s < 2048, "{five:?}");
                        most_s = most_s.max(s);
                        longest = longest.max(check_slots(five, s, limit, k(0)));
                    }
                }
            }
        }
    }
    println!("{tried} tried, {legal} legal, longest {longest} words, greatest S {most_s}");
    assert_eq!(tried, 15 * 16 * 15 * 9 * 3);
    assert_eq!(longest, 288_524);
}

/// P from 4S + 8 to 8,192 is legal and nothing else; answers the longest store.
fn check_slots(five: [usize; 5], s: u64, limit: i64, k0: u64) -> usize {
    let [b, w, d, g, h] = five.map(|n| n as u32);
    let with = |p: u64| Geometry::new([b, w, d, g, h, p as u32]);
    assert!(with(4 * s + 7).is_none() && with(8193).is_none());
    let longest = with(8192).expect("8,192 slots are legal");
    assert_eq!(longest.key_limit() as i64, limit);
    assert_eq!(longest.flash_capacity() as u64, s);
    let b = u64::from(b);
    let words = 12 + k0 * (1 + 2 * b) + s + 8192 * (2 + 2 * b);
    assert_eq!(longest.length() as u64, words);
    longest.length()
}

/// Any six words are judged without overflow; each limit is broken once.
#[test]
fn limits_and_any_words() {
    let legal = [4, 1, 2, 4, 1, 40];
    assert!(Geometry::new(legal).is_some());
    let broken = [
        (0, vec![0, 1, 17, u32::MAX]),
        (1, vec![0, 17, u32::MAX]),
        (2, vec![0, 1, 17, u32::MAX]),
        (3, vec![0, 1, 11, u32::MAX]),
        (4, vec![0, 4, u32::MAX]),
        (5, vec![0, 39, 8193, u32::MAX]),
    ];
    for (at, values) in broken {
        for value in values {
            let mut numbers = legal;
            numbers[at] = value;
            assert_eq!(Geometry::new(numbers), None, "{numbers:?}");
        }
    }
    assert_eq!(Geometry::new([u32::MAX; 6]), None);
    assert_eq!(Geometry::new([16, 16, 16, 10, 3, 8192]), None);
    // K(h): 16 × 16 × 4 is 1,024 and legal; 16 × 13 × 5 is 1,040 and not.
    assert!(Geometry::new([4, 16, 16, 4, 1, 8192]).is_some());
    assert!(Geometry::new([4, 16, 13, 5, 1, 8192]).is_none());
}

// A yardstick for `measure btree`: it puts the same records in the same order into the standard library's
// BTreeMap, then looks for each as a seek does, and copies out what it finds.
use std::collections::BTreeMap;

type Place = (Vec<u8>, u64);
type Kept = (u64, Vec<u8>);

/// The n-th key: n mixed by the finalizer of the generator splitmix64, most significant byte first.
fn key_of(n: u64) -> [u8; 8] {
    let mut mixed = n.wrapping_mul(0x9e37_79b9_7f4a_7c15);
    mixed = (mixed ^ (mixed >> 30)).wrapping_mul(0xbf58_476d_1ce4_e5b9);
    mixed = (mixed ^ (mixed >> 27)).wrapping_mul(0x94d0_49bb_1331_11eb);
    (mixed ^ (mixed >> 31)).to_be_bytes()
}

fn seek(map: &BTreeMap<Place, Kept>, key: &[u8]) -> Option<(Place, Kept)> {
    let (place, kept) = map.range((key.to_vec(), 1)..).next()?;
    Some((place.clone(), kept.clone()))
}

fn main() {
    let count: u64 = std::env::args().nth(1).unwrap().parse().unwrap();
    let mut map = BTreeMap::new();
    for n in 0..count {
        map.insert((key_of(n).to_vec(), 1), (u64::MAX, vec![b'v'; 100]));
    }
    println!("inserts {}", map.len());
    let mut found = 0;
    for n in 0..count {
        let key = key_of(n);
        if let Some((place, _)) = seek(&map, &key) {
            assert!(place.0 == key);
            found += 1;
        }
    }
    println!("seeks {found}");
}

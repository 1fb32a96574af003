//! Seek against the oracle: every whence, from held positions up to the largest size.
#![cfg(feature = "seek")]

#[cfg(oracle)]
mod with_oracle {
    use compare::{cards, Random};
    use oracle::Oracle;
    use tidmaruls::raw::FILE_MAX;

    const WHENCES: [i32; 8] = [0, 1, 2, 3, 7, -1, i32::MIN, i32::MAX];
    const LIMITS: [u32; 12] = [
        0,
        1,
        2,
        127,
        128,
        1 << 16,
        1 << 30,
        (1 << 30) + 1,
        FILE_MAX / 2,
        FILE_MAX - 2,
        FILE_MAX - 1,
        FILE_MAX,
    ];

    fn compare(oracle: &mut Oracle, size: u32, position: u32, offset: i32, whence: i32) {
        let head = if size == 0 { tidmaruls::raw::NULL } else { 3 };
        let table = cards::table(&[(7, size, head)]);
        let ours = table.seek(7, position, offset, whence);
        let theirs = oracle.seek(size, position, offset, whence);
        let wanted = u32::try_from(theirs).map_err(|_| theirs);
        assert_eq!(
            ours, wanted,
            "size {size}, position {position}, offset {offset}, whence {whence}"
        );
    }

    #[test]
    fn at_the_limits() {
        let mut oracle = Oracle::bare(128);
        let mut compared = 0u32;
        let ups = LIMITS.map(|limit| limit as i32);
        let offsets: Vec<i32> = ups.iter().flat_map(|&up| [up, -up, !up]).collect();
        for size in LIMITS {
            for position in LIMITS {
                for &offset in &offsets {
                    for whence in WHENCES {
                        compare(&mut oracle, size, position, offset, whence);
                        compared += 1;
                    }
                }
            }
        }
        println!("seek: {compared} at the limits");
    }

    #[test]
    fn at_random() {
        let mut random = Random::new(20);
        let mut oracle = Oracle::bare(512);
        let compared = 2_000_000;
        for _ in 0..compared {
            let shift = random.between(1, 31);
            let size = random.number() >> shift;
            let position = random.number() >> random.between(1, 31);
            let offset = random.number() as i32 >> random.below(31);
            let whence = random.pick(&WHENCES);
            compare(&mut oracle, size, position, offset, whence);
        }
        println!("seek: {compared} at random");
    }
}

#[cfg(not(oracle))]
#[test]
fn seek_as_the_oracle() {
    compare::skipped();
}

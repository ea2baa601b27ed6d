//! Every call returns on every input.

use reference::draft::printed;
use reference::random::Random;
use reference::{corners, layout, level, lookup, offset, plan, program, quantities, quantity};

/// Bytes among which short numbers are frequent.
fn bytes(random: &mut Random) -> Vec<u8> {
    let length = random.below(60);
    (0..length)
        .map(|_| match random.below(3) {
            0 => random.draw() as u8,
            1 => random.draw() as u8 & 7,
            _ => 0x80 | random.draw() as u8,
        })
        .collect()
}

#[test]
fn any_bytes_return() {
    let mut random = Random::new(3, "any bytes");
    for _ in 0..20_000 {
        let any = bytes(&mut random);
        let other = bytes(&mut random);
        let side = random.below(3);
        let _ = plan(&any, side, &mut [0; 9]);
        let _ = level(&any, side, random.draw());
        let sheet = random.below(1_200_000_000_000);
        let _ = corners(&any, random.below(3), sheet, 0);
        let _ = offset(&any, random.below(3), random.draw());
        let _ = quantity(&any, random.between(1, 6), 0, u64::MAX);
        let ranges = [random.draw(), random.draw(), 0, u64::MAX];
        let _ = quantities(&any, random.between(1, 6), &ranges[random.index(5)..]);
        let _ = lookup(&any, &other, side, random.draw());
        assert!(program::text(&any).ends_with('\n'));
    }
}

#[test]
fn a_changed_job_returns() {
    let mut random = Random::new(5, "changed jobs");
    let job = printed().bytes();
    for _ in 0..20_000 {
        let mut changed = job.clone();
        let at = random.index(changed.len());
        changed[at] = random.draw() as u8;
        let side = random.below(2);
        let _ = plan(&changed, side, &mut [0; 20]);
        let _ = level(&changed, side, random.below(300_000));
        let _ = corners(&changed, random.below(2), 0, random.below(9_000));
        let _ = offset(&changed, 0, random.below(100_000));
    }
}

#[test]
fn any_numbers_return_a_layout() {
    let mut random = Random::new(7, "any layouts");
    for _ in 0..3_000 {
        let lengths: Vec<u64> = (0..random.below(6))
            .map(|_| random.edgy(0, 20_001))
            .collect();
        let run = match random.below(3) {
            0 => u64::MAX - random.below(20_000),
            1 => random.draw(),
            _ => random.below(1_000_000),
        };
        let _ = layout(&lengths, run, random.edgy(0, 5_000));
        let _ = layout(&[random.draw(), random.draw()], run, random.draw());
    }
}

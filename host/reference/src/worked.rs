//! Answers worked out by hand from document 01: day M word by word, and what becomes of it when
//! one word is another one.

/// The words of day M.
pub const DAY_M: [u32; 31] = [
    0x1000_0102, // one tip, two stops
    0x2000_0064, // Q 100
    0x3000_00C8, // Q* 200
    0x4000_0005, // S* 5
    0x5000_0064, // depot 0..100
    0x6001_E03C, // rest 30..60
    0x7000_000A, // for 10 minutes
    0x5000_0064, // tip 0..100
    0x7000_0005, // V 5
    0x5000_0032, // stop 1: 0..50
    0x7000_0005, // V 5
    0x8000_003C, // q 60
    0x5000_0032, // stop 2: 0..50
    0x7000_0005, // V 5
    0x8000_0032, // q 50
    0x9000_0000, // from the depot to itself
    0x900A_0007, // to the tip: 10 minutes, distance 7
    0x900A_0007, // to stop 1
    0x900A_0007, // to stop 2
    0x900A_0007, // from the tip to the depot
    0x9000_0000, // to itself
    0x900A_0007,
    0x900A_0007,
    0x900A_0007, // from stop 1 to the depot
    0x900A_0007,
    0x9000_0000, // to itself
    0x900A_0007,
    0x900A_0007, // from stop 2 to the depot
    0x900A_0007,
    0x900A_0007,
    0x9000_0000, // to itself
];

/// Changes of day M: the index of a word, the word that stands there instead, and the number of
/// the refusal, 0 where the day is accepted. The place is the index, but for 4, where it is 31.
pub const CHANGES: &[(usize, u32, u64)] = &[
    // word 0: d is within 1..15, n within 0..240
    (0, 0x1000_0002, 3),
    (0, 0x1000_01F0, 4),
    (0, 0x1000_01F1, 3),
    (0, 0x1000_00F1, 3),
    (0, 0x1000_0F02, 4),
    (0, 0x1000_0101, 4),
    (0, 0x1000_1102, 2),
    (0, 0x1800_0102, 2),
    (0, 0x1000_1002, 2),
    (0, 0x2000_0102, 2),
    (0, 0x0000_0102, 2),
    // Q, 1..100,000
    (1, 0x2000_0000, 5),
    (1, 0x2000_0001, 0),
    (1, 0x2001_86A0, 0),
    (1, 0x2001_86A1, 5),
    (1, 0x27FF_FFFF, 5),
    (1, 0x2800_0064, 2),
    (1, 0x2800_0000, 2),
    (1, 0x3000_0064, 2),
    // Q*, 1..1,000,000
    (2, 0x3000_0000, 5),
    (2, 0x3000_0001, 0),
    (2, 0x300F_4240, 0),
    (2, 0x300F_4241, 5),
    (2, 0x3800_0001, 2),
    // S*, 1..240
    (3, 0x4000_0000, 5),
    (3, 0x4000_0001, 0),
    (3, 0x4000_00F0, 0),
    (3, 0x4000_00F1, 5),
    (3, 0x4800_0005, 2),
    // the depot's window, E within L, L within 1,440
    (4, 0x5000_0000, 0),
    (4, 0x5000_05A0, 0),
    (4, 0x505A_05A0, 0),
    (4, 0x5000_05A1, 5),
    (4, 0x505A_15A1, 5),
    (4, 0x505A_059F, 5),
    (4, 0x5000_1000, 5),
    (4, 0x50FF_F000, 5),
    (4, 0x50FF_FFFF, 5),
    (4, 0x5100_0064, 2),
    (4, 0x5800_0064, 2),
    (4, 0x6000_0064, 2),
    // the rest window
    (5, 0x6000_0000, 0),
    (5, 0x605A_05A0, 0),
    (5, 0x6000_05A1, 5),
    (5, 0x6003_C01E, 5),
    (5, 0x6101_E03C, 2),
    (5, 0x5001_E03C, 2),
    // R3, 0..240
    (6, 0x7000_0000, 0),
    (6, 0x7000_00F0, 0),
    (6, 0x7000_00F1, 5),
    (6, 0x7800_0000, 2),
    (6, 0x8000_000A, 2),
    // the tip
    (7, 0x505A_05A0, 0),
    (7, 0x5000_05A1, 5),
    (7, 0x5F00_0064, 2),
    (7, 0x6000_0064, 2),
    (8, 0x7000_0000, 0),
    (8, 0x7000_00F0, 0),
    (8, 0x7000_00F1, 5),
    (8, 0x7800_0005, 2),
    (8, 0x8000_0005, 2),
    // stop 1
    (9, 0x5003_2032, 0),
    (9, 0x5003_3032, 5),
    (9, 0x5000_05A1, 5),
    (9, 0x5100_0032, 2),
    (10, 0x7000_00F0, 0),
    (10, 0x7000_00F1, 5),
    (10, 0x7800_0005, 2),
    (11, 0x8000_0000, 0),
    (11, 0x8001_86A0, 0),
    (11, 0x8001_86A1, 5),
    (11, 0x8800_003C, 2),
    (11, 0x9000_003C, 2),
    // stop 2
    (12, 0x505A_05A0, 0),
    (12, 0x505A_15A0, 5),
    (13, 0x7000_00F0, 0),
    (13, 0x7000_00F1, 5),
    (14, 0x8001_86A0, 0),
    (14, 0x8001_86A1, 5),
    // legs from a place to itself
    (15, 0x9000_0001, 5),
    (15, 0x9001_0000, 5),
    (15, 0x95A0_FFFF, 5),
    (15, 0x8000_0000, 2),
    (15, 0xA000_0000, 2),
    (20, 0x9000_0001, 5),
    (25, 0x9001_0000, 5),
    (30, 0x9000_0001, 5),
    (30, 0x9FFF_FFFF, 5),
    (30, 0x0000_0000, 2),
    // legs between two places: minutes within 1,440, any distance
    (16, 0x9000_0000, 0),
    (16, 0x9000_FFFF, 0),
    (16, 0x95A0_FFFF, 0),
    (16, 0x95A1_0000, 5),
    (16, 0x9FFF_0000, 5),
    (16, 0x800A_0007, 2),
    (16, 0x100A_0007, 2),
    (19, 0x95A0_FFFF, 0),
    (24, 0x95A1_FFFF, 5),
    (29, 0x95A0_FFFF, 0),
    (29, 0x95A1_0007, 5),
    (29, 0xB00A_0007, 2),
];

/// Day M with other words at these indices.
pub fn with_words(changes: &[(usize, u32)]) -> [u32; 31] {
    let mut words = DAY_M;
    for &(index, word) in changes {
        words[index] = word;
    }
    words
}

/// Day M with one of these changes, and the number and place that are then refused.
pub fn changed(change: &(usize, u32, u64)) -> ([u32; 31], Option<(u64, u64)>) {
    let &(index, word, number) = change;
    let mut words = DAY_M;
    words[index] = word;
    let answer = match number {
        0 => None,
        4 => Some((4, 31)),
        _ => Some((number, index as u64)),
    };
    (words, answer)
}

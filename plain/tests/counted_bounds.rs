//! The worked values of the page on counts, on both devices.

use plain::{bound_counted, Bound, Count, Counted, Device, MOST_PATH_BYTES};

const DEVICES: [(Device, usize); 2] = [(Device::Em73862, 8192), (Device::Em73P982, 16384)];

/// Codes at addresses, bounded from 0100 with counts: what came back, and both paths.
fn bounded(codes: &[(usize, &[u8])], counts: &[(u32, u32)]) -> (Counted, Vec<u16>, Vec<u16>) {
    let counts: Vec<Count> = counts.iter().map(|&(address, most)| Count { address, most }).collect();
    let answers = DEVICES.map(|(device, size)| {
        let mut image = vec![0; size];
        for (at, bytes) in codes {
            image[*at..at + bytes.len()].copy_from_slice(bytes);
        }
        let [mut path, mut deep] = [vec![0; MOST_PATH_BYTES], vec![0; MOST_PATH_BYTES]];
        let answer = bound_counted(device, &image, 0, 0x100, &counts, &mut path, &mut deep);
        let (path_bytes, deep_bytes) = match answer {
            Counted::AsToday(Bound::Cycles { path_bytes, deep_bytes, .. }) => (path_bytes, deep_bytes),
            _ => (0, 0),
        };
        let addresses =
            |path: &[u8]| path.chunks(2).map(|pair| u16::from_le_bytes([pair[0], pair[1]])).collect::<Vec<u16>>();
        (answer, addresses(&path[..path_bytes]), addresses(&deep[..deep_bytes]))
    });
    assert_eq!(answers[0], answers[1]);
    answers[0].clone()
}

fn most(codes: &[(usize, &[u8])], counts: &[(u32, u32)]) -> u32 {
    match bounded(codes, counts).0 {
        Counted::AsToday(Bound::Cycles { most, .. }) => most,
        answer => panic!("{answer:?}"),
    }
}

fn number(codes: &[(usize, &[u8])], counts: &[(u32, u32)]) -> u8 {
    bounded(codes, counts).0.number()
}

fn repeats(address: u16) -> Counted {
    Counted::AsToday(Bound::Repetition(address))
}

#[test]
fn a_loop_of_two_rows() {
    let codes: &[(usize, &[u8])] = &[(0x100, &[0xF8, 0x00, 0x4D])];
    assert_eq!(bounded(codes, &[]).0, repeats(0x100));
    for at in [0x100, 0x101] {
        let path = [0x100, 0x101, 0x100, 0x101, 0x100, 0x101, 0x100, 0x101, 0x102];
        let (answer, longest, deepest) = bounded(codes, &[(at, 4)]);
        assert_eq!(answer, Counted::AsToday(Bound::Cycles { most: 10, path_bytes: 18, depth: 0, deep_bytes: 6 }));
        assert_eq!((longest, deepest), (path.to_vec(), vec![0x100, 0x101, 0x102]));
    }
    assert_eq!(bounded(codes, &[(0x102, 1)]).0, repeats(0x100));
    assert_eq!(most(codes, &[(0x100, 300), (0x102, 65535), (0x1FFF, 65535)]), 602);
    assert_eq!(most(codes, &[(0x100, 16382)]), 32766);
    assert_eq!(number(codes, &[(0x100, 16383)]), 28);
}

#[test]
fn loops_one_after_another_add() {
    let codes: &[(usize, &[u8])] = &[(0x100, &[0xF8, 0x00, 0xF8, 0x02, 0x4D])];
    assert_eq!(most(codes, &[(0x100, 300), (0x102, 300)]), 1202);
    assert_eq!(number(codes, &[(0x100, 8191), (0x102, 8191)]), 28);
}

#[test]
fn nested_loops_multiply() {
    let codes: &[(usize, &[u8])] = &[(0x100, &[0x56, 0x56, 0xF8, 0x01, 0xF8, 0x00, 0x4D])];
    assert_eq!(most(codes, &[(0x100, 4), (0x101, 12)]), 50);
    assert_eq!(most(codes, &[(0x100, 30), (0x101, 150)]), 542);
    assert_eq!(number(codes, &[(0x100, 300), (0x101, 300)]), 28);
    assert_eq!(most(codes, &[(0x100, 4), (0x101, 3)]), 20);
    assert_eq!(most(codes, &[(0x101, 12)]), 74);
    assert_eq!(bounded(codes, &[(0x100, 4)]).0, repeats(0x101));
}

#[test]
fn both_forms_of_an_address_count_together() {
    let codes: &[(usize, &[u8])] = &[(0x100, &[0x56, 0x04, 0xC1, 0x01, 0x4D])];
    assert_eq!(bounded(codes, &[(0x101, 2)]).1, [0x100, 0x101, 0x102, 0x101, 0x104]);
    assert_eq!(number(codes, &[(0x101, 16382)]), 28);
    let codes: &[(usize, &[u8])] = &[(0x100, &[0x03, 0x56, 0x56, 0x08, 0x4D, 0x56, 0x56, 0x56, 0xC1, 0x02])];
    assert_eq!(number(codes, &[(0x103, 1)]), 27);
    assert_eq!(bounded(codes, &[(0x103, 2)]).1, [0x100, 0x103, 0x108, 0x102, 0x103, 0x104]);
}

#[test]
fn each_call_counts_anew() {
    let routine: (usize, &[u8]) = (0x0E, &[0xF8, 0x0E, 0x4F]);
    assert_eq!(most(&[(0x100, &[0xE1, 0xE1, 0x4D]), routine], &[(0x0E, 3)]), 22);
    assert_eq!(bounded(&[(0x100, &[0x56, 0xE1, 0xF8, 0x00, 0x4D]), routine], &[(0x0E, 3)]).0, repeats(0x100));
}

#[test]
fn ways_that_lead_nowhere_add_nothing() {
    assert_eq!(number(&[(0x100, &[0xD3, 0x00])], &[(0x100, 3)]), 27);
    let codes: &[(usize, &[u8])] = &[(0x100, &[0xF8, 0x04, 0x56, 0x4D, 0x56, 0x56, 0x56, 0xD3, 0x07])];
    assert_eq!(bounded(codes, &[(0x107, 3)]).1, [0x100, 0x101, 0x102, 0x103]);
    // What is known after a call is judged without counts.
    let codes: &[(usize, &[u8])] = &[
        (0x100, &[0x42, 0x00, 0x05, 0x56, 0x56, 0x4D]),
        (0x200, &[0xD3, 0x04, 0x56, 0x56, 0x07, 0x56, 0x4F, 0xF8, 0x03, 0x4F]),
    ];
    assert_eq!(most(codes, &[(0x204, 1)]), 14);
}

#[test]
fn counts_that_are_refused() {
    let codes: &[(usize, &[u8])] = &[(0x100, &[0xF8, 0x00, 0x4D])];
    let many: Vec<(u32, u32)> = (0..17).map(|address| (address, 1)).collect();
    assert_eq!(number(codes, &many), 26);
    assert_eq!(bounded(codes, &many[..16]).0, repeats(0x100));
    for counts in
        [&[(0x2000, 1)][..], &[(0x100, 0)], &[(0x100, 65536)], &[(0x101, 1), (0x100, 1)], &[(0x100, 1), (0x100, 1)]]
    {
        assert_eq!(number(codes, counts), 26, "{counts:?}");
    }
}

//! Holds the tests of the next change from an old image to a new one: where it starts and ends, its
//! pairs, its refusals, and that all changes together make the new image.

mod common;

use common::{hex, space, Bench, Numbers, FILL};
use model::{next_change, write_command, Answer, Change, ChangeRefusal, Request};

/// The next change and its pairs. Holds the rules about what stays untouched to it, in buffers of
/// several sizes.
fn next(before: &[u8], after: &[u8], from: usize) -> Option<(Change, Vec<(u8, u8)>)> {
    let mut found = Vec::new();
    for (size, fill) in [(64, FILL), (64, !FILL), (80, FILL)] {
        let mut buffer = vec![fill; size];
        let change = next_change(before, after, from, &mut buffer).expect("no refusal");
        let used = change.map_or(0, |change| 2 * change.count);
        assert!(buffer[used..].iter().all(|&byte| byte == fill));
        buffer.truncate(used);
        found.push((change, buffer));
    }
    found.dedup();
    assert_eq!(found.len(), 1);
    let (change, bytes) = found.remove(0);
    let change = change?;
    assert!((1..=32).contains(&change.count));
    let pairs = bytes.chunks_exact(2).map(|pair| (pair[0], pair[1]));
    Some((change, pairs.collect()))
}

/// The start and the count of the next change; none where there is no change.
fn place(before: &[u8], after: &[u8], from: usize) -> Option<(usize, usize)> {
    next(before, after, from).map(|(change, _)| (change.start, change.count))
}

/// All changes, each looked for behind the one before.
fn all(before: &[u8], after: &[u8]) -> Vec<(Change, Vec<(u8, u8)>)> {
    let mut changes: Vec<(Change, Vec<_>)> = Vec::new();
    let mut from = 0;
    while let Some((change, pairs)) = next(before, after, from) {
        assert!(change.start >= from);
        from = change.start + change.count;
        changes.push((change, pairs));
    }
    changes
}

/// Starts and counts of all changes.
fn places(before: &[u8], after: &[u8]) -> Vec<(usize, usize)> {
    let changes = all(before, after);
    let places = changes
        .iter()
        .map(|(change, _)| (change.start, change.count));
    places.collect()
}

/// An image of zeros, and one that has a bit at each of these indices.
fn images(length: usize, indices: &[usize]) -> (Vec<u8>, Vec<u8>) {
    let (before, mut after) = (vec![0; length], vec![0; length]);
    for &index in indices {
        after[index] = 1 << (index % 8);
    }
    (before, after)
}

/// Asserts what a call that is refused says, and that it leaves the buffer as it was.
fn refuses(before: &[u8], after: &[u8], from: usize, size: usize, refusal: ChangeRefusal) {
    let buffer: Vec<u8> = (0..size).map(|index| index as u8 ^ FILL).collect();
    let mut lent = buffer.clone();
    assert_eq!(next_change(before, after, from, &mut lent), Err(refusal));
    assert_eq!(lent, buffer);
}

#[test]
fn equal_images_and_empty_ones_have_no_change() {
    let image: Vec<u8> = (0..100).collect();
    for length in [0, 1, 31, 32, 33, 100] {
        let image = &image[..length];
        for from in [0, 1, 31, 32, 99, 100, 101, usize::MAX] {
            assert_eq!(next(image, image, from), None);
        }
    }
}

#[test]
fn a_change_at_index_0_is_not_no_change() {
    let change = Change { start: 0, count: 1 };
    assert_eq!(next(&[0x00], &[0x01], 0), Some((change, vec![(1, 1)])));
    assert_eq!(next(&[0x01], &[0x00], 0), Some((change, vec![(1, 0)])));
    assert_eq!(next(&[0x01], &[0x01], 0), None);
    assert_eq!(next(&[0x00], &[0x01], 1), None);
}

#[test]
fn the_mask_has_the_bits_that_differ_and_the_data_are_new() {
    for before in 0..=255u8 {
        for after in (0..=255u8).filter(|&after| after != before) {
            let mut pairs = [FILL; 64];
            let change = next_change(&[before], &[after], 0, &mut pairs);
            assert_eq!(change, Ok(Some(Change { start: 0, count: 1 })));
            let differing = before ^ after;
            assert_eq!(pairs[..2], [differing, after & differing]);
        }
    }
}

#[test]
fn bytes_in_between_that_do_not_differ() {
    let before = hex("11 22 33 44 FF 00 55 66");
    let after = hex("11 23 33 44 0F 00 AA 66");
    let change = Change { start: 1, count: 6 };
    let pairs = vec![
        (0x01, 0x01),
        (0x00, 0x00),
        (0x00, 0x00),
        (0xF0, 0x00),
        (0x00, 0x00),
        (0xFF, 0xAA),
    ];
    assert_eq!(next(&before, &after, 0), Some((change, pairs.clone())));
    assert_eq!(next(&before, &after, 1), Some((change, pairs)));
}

#[test]
fn the_first_and_the_last_byte() {
    for length in [1, 2, 31, 32, 33, 64, 100] {
        let (before, after) = images(length, &[0]);
        assert_eq!(places(&before, &after), [(0, 1)]);
        let (before, after) = images(length, &[length - 1]);
        assert_eq!(places(&before, &after), [(length - 1, 1)]);
        assert_eq!(place(&before, &after, length - 1), Some((length - 1, 1)));
        assert_eq!(place(&before, &after, length), None);
    }
}

#[test]
fn thirty_two_bytes_in_one_change_and_thirty_three_in_two() {
    for start in [0, 1, 7, 60] {
        // 30 unchanged bytes in between, then 31, then 32.
        let (before, after) = images(100, &[start, start + 31]);
        assert_eq!(places(&before, &after), [(start, 32)]);
        let (before, after) = images(100, &[start, start + 32]);
        assert_eq!(places(&before, &after), [(start, 1), (start + 32, 1)]);
        let (before, after) = images(100, &[start, start + 33]);
        assert_eq!(places(&before, &after), [(start, 1), (start + 33, 1)]);
        // The last one that differs within reach ends it, and not the first behind a gap.
        let (before, after) = images(100, &[start, start + 3, start + 30, start + 32]);
        assert_eq!(places(&before, &after), [(start, 31), (start + 32, 1)]);
    }
    // The images end before the reach does.
    let (before, after) = images(50, &[40, 49]);
    assert_eq!(places(&before, &after), [(40, 10)]);
}

#[test]
fn images_that_differ_in_every_byte() {
    let before: Vec<u8> = (0..100).collect();
    let after: Vec<u8> = before.iter().map(|byte| byte ^ 0x81).collect();
    for length in 0..=100 {
        let changes = places(&before[..length], &after[..length]);
        assert_eq!(changes.len(), length.div_ceil(32));
        for (number, change) in changes.into_iter().enumerate() {
            let start = 32 * number;
            assert_eq!(change, (start, 32.min(length - start)));
        }
    }
    let (_, pairs) = next(&before, &after, 5).unwrap();
    let expected: Vec<_> = (5..37).map(|byte| (0x81, (byte ^ 0x81) & 0x81)).collect();
    assert_eq!(pairs, expected);
}

#[test]
fn from_before_on_and_behind_what_differs() {
    let (before, after) = images(100, &[10, 12, 50]);
    for from in 0..=10 {
        assert_eq!(place(&before, &after, from), Some((10, 3)));
    }
    // What differs before `from` is left alone, also within one masked write.
    assert_eq!(place(&before, &after, 11), Some((12, 1)));
    assert_eq!(place(&before, &after, 12), Some((12, 1)));
    for from in 13..=50 {
        assert_eq!(place(&before, &after, from), Some((50, 1)));
    }
    for from in [51, 99, 100, 101, 131, usize::MAX - 32, usize::MAX] {
        assert_eq!(place(&before, &after, from), None);
    }
    let (before, after) = images(100, &[20, 31, 51, 52]);
    assert_eq!(place(&before, &after, 20), Some((20, 32)));
    assert_eq!(place(&before, &after, 21), Some((31, 22)));
}

#[test]
fn refusals() {
    let (before, after) = images(40, &[3, 39]);
    let shorter = &after[..39];
    for from in [0, 3, 4, 39, 40, usize::MAX] {
        // The lengths come first, whatever the buffer is.
        for size in [0, 1, 63, 64, 72, 80] {
            refuses(&before, shorter, from, size, ChangeRefusal::LengthsDiffer);
            refuses(shorter, &before, from, size, ChangeRefusal::LengthsDiffer);
            refuses(&[], &[0], from, size, ChangeRefusal::LengthsDiffer);
            refuses(&[0], &[], from, size, ChangeRefusal::LengthsDiffer);
        }
        // A short buffer also where there is no change, or only a short one.
        for size in [0, 1, 2, 62, 63] {
            refuses(&before, &after, from, size, ChangeRefusal::BufferTooShort);
            refuses(&before, &before, from, size, ChangeRefusal::BufferTooShort);
            refuses(&[], &[], from, size, ChangeRefusal::BufferTooShort);
            refuses(&[0], &[1], from, size, ChangeRefusal::BufferTooShort);
        }
    }
}

#[test]
fn buffers_of_64_bytes_and_more() {
    let (before, after) = (vec![0x00; 32], vec![0xFF; 32]);
    for size in [64, 65, 72, 80, 200] {
        let mut buffer = vec![FILL; size];
        let change = next_change(&before, &after, 0, &mut buffer);
        let whole = Change {
            start: 0,
            count: 32,
        };
        assert_eq!(change, Ok(Some(whole)));
        assert!(buffer[..64].iter().all(|&byte| byte == 0xFF));
        assert!(buffer[64..].iter().all(|&byte| byte == FILL));
    }
}

// Images that look random.

/// An old and a new image of up to 100 bytes, which differ in few, some or most of their bytes.
fn random_images(numbers: &mut Numbers) -> (Vec<u8>, Vec<u8>) {
    let length = numbers.below(101) as usize;
    let before = numbers.bytes(length);
    let mut after = before.clone();
    let sparse = numbers.one_of(&[2, 5, 12, 30, 60]);
    for byte in &mut after {
        if numbers.below(sparse) == 0 {
            *byte ^= match numbers.below(3) {
                0 => numbers.byte(),
                _ => 1 << numbers.below(8),
            };
        }
    }
    (before, after)
}

/// Sends all changes as masked writes to a board that has this memory, and gives the memory
/// afterwards.
fn sent(before: &[u8], after: &[u8], memory: &[u8]) -> Vec<u8> {
    let mut board = Bench::with_spaces(&[]);
    if !memory.is_empty() {
        let highest = 0x200 + memory.len() as u32 - 1;
        board.spaces.push(space(0x10, 0x200, highest, 0));
    }
    board.memory = memory.to_vec();
    for (Change { start, count }, pairs) in all(before, after) {
        let pairs: Vec<u8> = pairs.into_iter().flat_map(<[u8; 2]>::from).collect();
        let request = Request::WriteMasked {
            space: 0x10,
            address: 0x200 + start as u32,
            pairs: &pairs,
        };
        let mut command = [0; 72];
        let length = write_command(&request, &mut command).expect("a request in range");
        let answer = board.datagram(&command[..length]);
        assert_eq!(answer, Ok(Answer::Written { start, count }));
    }
    board.memory
}

#[test]
fn all_changes_take_the_old_image_to_the_new_one() {
    let mut numbers = Numbers(0x9E37_79B9_7F4A_7C15);
    let mut several = 0;
    for _ in 0..500 {
        let (before, after) = random_images(&mut numbers);
        assert_eq!(sent(&before, &after, &before), after);
        several += u32::from(places(&before, &after).len() > 1);
        // A memory that another tool has changed keeps every bit that does not differ.
        let other = numbers.bytes(before.len());
        let expected: Vec<u8> = (0..before.len())
            .map(|at| {
                let differing = before[at] ^ after[at];
                (other[at] & !differing) | (after[at] & differing)
            })
            .collect();
        assert_eq!(sent(&before, &after, &other), expected);
    }
    assert!(several > 100, "{several}");
}

#[test]
fn each_change_starts_and_ends_where_it_should() {
    let mut numbers = Numbers(0x2545_F491_4F6C_DD1D);
    for _ in 0..300 {
        let (before, after) = random_images(&mut numbers);
        let differing: Vec<usize> = (0..before.len())
            .filter(|&at| before[at] != after[at])
            .collect();
        for from in 0..before.len() + 2 {
            let start = differing.iter().copied().find(|&at| at >= from);
            let expected = start.map(|start| {
                let reached = differing.iter().filter(|&&at| at < start + 32);
                (start, reached.max().unwrap() - start + 1)
            });
            let mut buffer = [FILL; 64];
            let change = next_change(&before, &after, from, &mut buffer).unwrap();
            let found = change.map(|change| (change.start, change.count));
            assert_eq!(found, expected);
            let Some((start, count)) = found else {
                continue;
            };
            for (pair, at) in buffer.chunks_exact(2).zip(start..start + count) {
                let mask = before[at] ^ after[at];
                assert_eq!(pair, [mask, after[at] & mask]);
            }
        }
    }
}

/// The fewest runs of at most 32 bytes that cover all bytes that differ, found from the start on
/// by trying every length of the last run.
fn fewest(before: &[u8], after: &[u8]) -> usize {
    let mut fewest = vec![0];
    for end in 1..=before.len() {
        let unchanged = before[end - 1] == after[end - 1];
        let without = unchanged.then(|| fewest[end - 1]);
        let with = (1..=32.min(end)).map(|length| fewest[end - length] + 1);
        fewest.push(with.chain(without).min().unwrap());
    }
    fewest[before.len()]
}

#[test]
fn there_are_no_more_changes_than_there_have_to_be() {
    let by_hand = [
        (&[][..], 0),
        (&[0], 1),
        (&[0, 31], 1),
        (&[0, 32], 2),
        (&[0, 20, 40, 60], 2),
        (&[0, 31, 32, 63, 64], 3),
        (&[10, 50, 90], 3),
    ];
    for (indices, expected) in by_hand {
        let (before, after) = images(100, indices);
        assert_eq!(fewest(&before, &after), expected);
        assert_eq!(places(&before, &after).len(), expected);
    }
    let mut numbers = Numbers(0x1405_7B7E_F767_814F);
    let mut seen = [0; 5];
    for _ in 0..500 {
        let (before, after) = random_images(&mut numbers);
        let count = places(&before, &after).len();
        assert_eq!(count, fewest(&before, &after));
        seen[count] += 1;
    }
    assert!(seen[..4].iter().all(|&times| times > 30), "{seen:?}");
}

//! Holds random images of memory, mostly short, and where they differ: nowhere, at a few bytes, at
//! many, at their ends, or at bytes that are just as far apart as one masked write reaches.

use crate::random::Random;

/// The most bytes of an image.
pub const LONGEST: usize = 200;

/// An image.
pub fn any_image(random: &mut Random) -> Vec<u8> {
    let length = match random.below(8) {
        0 => random.pick(&[0, 1, 31, 32, 33, 34, 63, 64, 65, 66, LONGEST]),
        1 => random.between(0, LONGEST),
        2 | 3 => random.between(30, 70),
        _ => random.between(0, 12),
    };
    random.bytes(length)
}

/// Two images, mostly of the same length.
pub fn any_images(random: &mut Random) -> (Vec<u8>, Vec<u8>) {
    let before = any_image(random);
    let mut after = altered(random, &before);
    if random.once_in(10) {
        lengthen_or_shorten(random, &mut after);
    }
    (before, after)
}

/// Another image of the same length.
pub fn altered(random: &mut Random, before: &[u8]) -> Vec<u8> {
    let mut after = before.to_vec();
    let Some(last) = after.len().checked_sub(1) else {
        return after;
    };
    match random.below(8) {
        0 => {}
        1 => (0..=last).for_each(|index| alter(random, &mut after, index)),
        2 => {
            for index in 0..=last {
                if random.once_in(2) {
                    alter(random, &mut after, index);
                }
            }
        }
        3 => {
            let ends = [0, last];
            for &index in random.pick(&[&ends[..1], &ends[1..], &ends]) {
                alter(random, &mut after, index);
            }
        }
        4 | 5 => alter_apart(random, &mut after),
        _ => {
            for _ in 0..random.between(1, 3) {
                let index = random.between(0, last);
                alter(random, &mut after, index);
            }
        }
    }
    after
}

/// Alters bytes that are about 32 apart, as far as the image reaches.
fn alter_apart(random: &mut Random, image: &mut [u8]) {
    let distances = random.pick(&[
        &[31][..],
        &[32],
        &[31, 32],
        &[30],
        &[33],
        &[31, 63],
        &[32, 64],
    ]);
    let most = distances.iter().copied().max().unwrap_or(0);
    let start = random.between(0, image.len().saturating_sub(most + 1));
    alter(random, image, start);
    for distance in distances {
        if start + distance < image.len() {
            alter(random, image, start + distance);
        }
    }
}

/// Alters one bit of a byte, all of them, or some.
fn alter(random: &mut Random, image: &mut [u8], index: usize) {
    image[index] ^= match random.below(4) {
        0 => 1 << random.below(8),
        1 => 0xFF,
        _ => random.between(1, 0xFF) as u8,
    };
}

/// Gives an image another length.
fn lengthen_or_shorten(random: &mut Random, image: &mut Vec<u8>) {
    let length = image.len();
    let other = match random.below(6) {
        0 => 0,
        1 | 2 => length.saturating_sub(1),
        3 => random.between(0, LONGEST),
        _ => length + 1,
    };
    // Never the same one.
    let other = if other == length { length + 1 } else { other };
    image.resize(other, random.byte());
}

/// An index at which to look on: 0, at the end of the images or behind it, at a byte that differs
/// or right behind one, or any other.
pub fn any_from(random: &mut Random, before: &[u8], after: &[u8]) -> usize {
    let length = before.len();
    match random.below(12) {
        0..=3 => 0,
        4 => random.between(0, length),
        5 => length,
        6 => length.saturating_sub(1),
        7 if random.once_in(2) => length + random.between(1, 40),
        // Low bits that alone would be within.
        7 => random.pick(&[1 << 8, 1 << 16, 1 << 32]) + random.between(0, length),
        8 => usize::MAX - random.pick(&[0, 0, 0, 1, 31, 32, 63]),
        _ => {
            let bytes = || before.iter().zip(after);
            let count = bytes().filter(|(old, new)| old != new).count();
            let number = random.below(count.max(1));
            let mut places = (0..).zip(bytes()).filter(|(_, (old, new))| old != new);
            let place = places.nth(number).map_or(0, |(index, _)| index);
            place + random.below(2)
        }
    }
}

#[cfg(test)]
mod tests {
    use super::*;

    #[test]
    fn an_altered_image_has_the_same_length_and_another_one_has_not() {
        let mut random = Random::new(16);
        for _ in 0..2_000 {
            let image = any_image(&mut random);
            assert!(image.len() <= LONGEST);
            let mut other = altered(&mut random, &image);
            assert_eq!(other.len(), image.len());
            lengthen_or_shorten(&mut random, &mut other);
            assert_ne!(other.len(), image.len());
        }
    }

    #[test]
    fn bytes_are_as_far_apart_as_they_are_to_be() {
        let mut random = Random::new(16);
        let mut seen = [0; 66];
        for _ in 0..1_000 {
            let mut image = [0; 66];
            alter_apart(&mut random, &mut image);
            let places: Vec<usize> = (0..66).filter(|&index| image[index] != 0).collect();
            let distances = places.windows(2).map(|two| two[1] - two[0]);
            distances.for_each(|distance| seen[distance] += 1);
        }
        let reached: Vec<usize> = (0..66).filter(|&distance| seen[distance] != 0).collect();
        assert_eq!(reached, [1, 30, 31, 32, 33]);
    }
}

//! Damages bytes of any meaning: one changed, put in or dropped, or all cut. What a wrong byte may be, the caller says.

use crate::random::Random;

pub type AnyByte = fn(&mut Random) -> u8;
pub type ByteDamage = fn(&mut Random, &mut Vec<u8>, AnyByte);

pub fn changed(random: &mut Random, bytes: &mut Vec<u8>, any_byte: AnyByte) {
    let at = random.below(bytes.len());
    bytes[at] = match random.below(3) {
        0 => bytes[at].wrapping_add(1),
        1 => bytes[at].wrapping_sub(1),
        _ => any_byte(random),
    };
}

pub fn cut(random: &mut Random, bytes: &mut Vec<u8>, _: AnyByte) {
    bytes.truncate(random.below(bytes.len()));
}

pub fn dropped(random: &mut Random, bytes: &mut Vec<u8>, _: AnyByte) {
    bytes.remove(random.below(bytes.len()));
}

pub fn put_in(random: &mut Random, bytes: &mut Vec<u8>, any_byte: AnyByte) {
    let byte = any_byte(random);
    bytes.insert(random.between(0, bytes.len()), byte);
}

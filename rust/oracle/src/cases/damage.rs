//! One change to a written image. A field is named, not counted in bits, so that it is still met in a smaller image.

use crate::judge::Image;
use crate::rules::DOCUMENT_01;
use crate::write::{At, Field, ImageDraft, put_field};

#[derive(Clone, Debug, PartialEq, Eq)]
pub enum Damage {
    /// The field gets this value.
    Set(Field, At, u32),
    /// The field's value moves by so much, round its end.
    Move(Field, At, i32),
    /// The bit changes, counted from the end of the image.
    FlipFromEnd(usize),
    /// Only so many bytes stay.
    Keep(usize),
    /// Bytes follow the image.
    Append(Vec<u8>),
    /// The length field is made to say the length that now is.
    SayLength,
}

/// The bytes of the image after each damage in turn.
pub fn damaged(image: &ImageDraft, damages: &[Damage]) -> Vec<u8> {
    let mut bytes = image.bytes();
    for damage in damages {
        apply(image, damage, &mut bytes);
    }
    bytes
}

fn apply(image: &ImageDraft, damage: &Damage, bytes: &mut Vec<u8>) {
    match *damage {
        Damage::Set(field, at, value) => {
            if let Some((bit, width)) = image.locate(field, at) {
                put_field(bytes, bit, width, value);
            }
        }
        Damage::Move(field, at, by) => {
            if let Some((bit, width)) = image.locate(field, at) {
                let value = Image { bytes, rules: &DOCUMENT_01.image }.field(bit, width);
                put_field(bytes, bit, width, value.wrapping_add_signed(by));
            }
        }
        Damage::FlipFromEnd(bit) => {
            if let Some(bit) = (8 * bytes.len()).checked_sub(bit + 1) {
                bytes[bit / 8] ^= 0x80 >> (bit % 8);
            }
        }
        Damage::Keep(length) => bytes.truncate(length),
        Damage::Append(ref more) => bytes.extend(more),
        Damage::SayLength => {
            let length = bytes.len() as u32;
            put_field(bytes, 40, 24, length);
        }
    }
}

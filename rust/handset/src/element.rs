//! An element by its values, and as the bytes of a block.
use crate::{Refusal, ELEMENT_BYTES};
use core::mem::{offset_of, size_of, size_of_val};
use core::slice;

/// A motion: rotation, translation, velocity and time.
///
/// The fields may hold any numbers. A call refuses those that are not finite, and a quaternion whose norm is further from
/// 1 than the tolerance. `==` compares numbers, so -0 equals +0 there; [`to_bytes`](Element::to_bytes) tells them apart.
#[derive(Clone, Copy, Debug, PartialEq)]
#[repr(C)]
pub struct Element {
    /// The translation x, y, z.
    pub translation: [f64; 3],
    /// The rotation, a quaternion w, x, y, z.
    pub rotation: [f64; 4],
    /// The velocity x, y, z.
    pub velocity: [f64; 3],
    /// The time.
    pub time: f64,
}

// Calls read elements where they stand in memory, so there each has to be its 88 bytes, with none between the fields.
#[cfg(not(target_endian = "little"))]
compile_error!("handset needs a little-endian processor: in memory an element has to be its bytes");
const _: () = {
    assert!(size_of::<Element>() == ELEMENT_BYTES);
    assert!(offset_of!(Element, translation) == 0);
    assert!(offset_of!(Element, rotation) == 3 * 8);
    assert!(offset_of!(Element, velocity) == 7 * 8);
    assert!(offset_of!(Element, time) == 10 * 8);
};

impl Element {
    /// The motion that changes nothing.
    pub const IDENTITY: Element = Element {
        translation: [0.0; 3],
        rotation: [1.0, 0.0, 0.0, 0.0],
        velocity: [0.0; 3],
        time: 0.0,
    };

    /// The values in the order of the fields, each little-endian.
    pub fn to_bytes(&self) -> [u8; ELEMENT_BYTES] {
        let [t0, t1, t2] = self.translation;
        let [w, x, y, z] = self.rotation;
        let [v0, v1, v2] = self.velocity;
        let values = [t0, t1, t2, w, x, y, z, v0, v1, v2, self.time];
        let mut bytes = [0; ELEMENT_BYTES];
        for (word, value) in bytes.chunks_exact_mut(8).zip(values) {
            word.copy_from_slice(&value.to_le_bytes());
        }
        bytes
    }

    /// The element of the bytes that [`to_bytes`](Element::to_bytes) gives. The values are not checked: a call checks
    /// them.
    pub fn from_bytes(bytes: &[u8; ELEMENT_BYTES]) -> Element {
        let value = |i: usize| f64::from_le_bytes(core::array::from_fn(|j| bytes[8 * i + j]));
        Element {
            translation: [value(0), value(1), value(2)],
            rotation: [value(3), value(4), value(5), value(6)],
            velocity: [value(7), value(8), value(9)],
            time: value(10),
        }
    }

    /// The bytes that [`to_bytes`](Element::to_bytes) gives, where they stand.
    pub(crate) fn as_bytes(&self) -> &[u8] {
        bytes_of(slice::from_ref(self))
    }
}

/// The element of [`ELEMENT_BYTES`] bytes, as they come over the air. Another length is refused as [`Refusal::Length`].
/// The values are not checked, as in [`from_bytes`](Element::from_bytes): a call checks them.
///
/// ```
/// use handset::{Element, Refusal};
///
/// let step = Element { time: 0.25, ..Element::IDENTITY };
/// let received = step.to_bytes();
/// assert_eq!(Element::try_from(&received[..]), Ok(step));
/// assert_eq!(Element::try_from(&received[1..]), Err(Refusal::Length));
/// ```
impl TryFrom<&[u8]> for Element {
    type Error = Refusal;

    fn try_from(bytes: &[u8]) -> Result<Element, Refusal> {
        let bytes = bytes.try_into().map_err(|_| Refusal::Length)?;
        Ok(Element::from_bytes(bytes))
    }
}

/// The bytes of the elements, laid end to end, where they stand.
#[allow(unsafe_code)]
pub(crate) fn bytes_of(elements: &[Element]) -> &[u8] {
    // SAFETY: the pointer and the length are those of one slice, borrowed for as long as its bytes are. No byte is
    // uninitialised, since an element has none between its fields, and bytes may stand at any place.
    unsafe { slice::from_raw_parts(elements.as_ptr().cast(), size_of_val(elements)) }
}

#[cfg(test)]
mod tests {
    use super::{bytes_of, Element};

    #[test]
    fn elements_are_their_bytes() {
        let elements: [Element; 3] = core::array::from_fn(|i| {
            let value = |j: usize| f64::from_bits(0x3ff0_1122_3344_5500 + (11 * i + j) as u64);
            Element {
                translation: [value(0), value(1), value(2)],
                rotation: [value(3), value(4), value(5), value(6)],
                velocity: [value(7), value(8), value(9)],
                time: value(10),
            }
        });
        let bytes = elements.map(|element| element.to_bytes());
        assert_eq!(bytes_of(&elements), bytes.as_flattened());
        assert_eq!(elements[1].as_bytes(), bytes[1]);
        assert!(bytes_of(&[]).is_empty());
    }
}

//! The motion that a set holds, stepped in place.
use crate::{done, entries, Element, Refusal, ELEMENT_BYTES};
use core::fmt;

/// The motion that a set holds since its last fix, and to which it adds one step after the other.
///
/// A step that is refused changes nothing. What is held are the 88 bytes of an element, and a step is composed in place:
/// one call of the library, and no copy.
///
/// ```
/// use handset::{Element, Held, Refusal};
///
/// let mut held = Held::new();
/// let step = Element { time: 0.25, ..Element::IDENTITY };
/// held.step(&step)?;
/// assert_eq!(held.step(&Element { time: f64::NAN, ..step }), Err(Refusal::NotFinite));
/// assert_eq!(held.time(), 0.25);
/// held.step(&step)?;
/// assert_eq!(held.time(), 0.5);
/// # Ok::<(), Refusal>(())
/// ```
///
/// `==` compares the bytes, so it tells -0 from +0.
#[derive(Clone, PartialEq, Eq)]
pub struct Held {
    bytes: [u8; ELEMENT_BYTES],
}

impl Held {
    /// The identity: no step was taken yet.
    ///
    /// ```
    /// use handset::{Element, Held};
    ///
    /// const START: Held = Held::new();
    /// assert_eq!(START, Held::from(Element::IDENTITY));
    /// ```
    pub const fn new() -> Held {
        let mut bytes = [0; ELEMENT_BYTES];
        // The quaternion's w is 1.
        bytes[3 * 8 + 6] = 0xf0;
        bytes[3 * 8 + 7] = 0x3f;
        Held { bytes }
    }

    /// Takes a step after what is held. If it is refused, what was held is still held, bit for bit.
    pub fn step(&mut self, step: &Element) -> Result<(), Refusal> {
        self.step_bytes(step.as_bytes())
    }

    /// Takes a step, given as its [`ELEMENT_BYTES`] bytes, as they come over the air. If it is refused, as
    /// [`Refusal::Length`] where it has another length, what was held is still held, bit for bit.
    ///
    /// ```
    /// use handset::{Element, Held, Refusal};
    ///
    /// let mut held = Held::new();
    /// let received = Element { time: 0.25, ..Element::IDENTITY }.to_bytes();
    /// held.step_bytes(&received)?;
    /// assert_eq!(held.step_bytes(&received[1..]), Err(Refusal::Length));
    /// assert_eq!(held.as_bytes(), &received);
    /// # Ok::<(), Refusal>(())
    /// ```
    pub fn step_bytes(&mut self, step: &[u8]) -> Result<(), Refusal> {
        done(entries::compose_in_place(&mut self.bytes, step))
    }

    /// Takes a step after what is held, at a tolerance, to which both are held. If it is refused, what was held is still
    /// held, bit for bit.
    ///
    /// ```
    /// use handset::{Element, Held, Refusal};
    ///
    /// let mut held = Held::new();
    /// let step = Element { rotation: [1.0005, 0.0, 0.0, 0.0], time: 0.25, ..Element::IDENTITY };
    /// assert_eq!(held.step(&step), Err(Refusal::NotUnit));
    /// held.step_within(&step, 9e-4)?;
    /// assert_eq!(held.step_within(&step, f64::NAN), Err(Refusal::Tolerance));
    /// assert_eq!(held.time(), 0.25);
    /// # Ok::<(), Refusal>(())
    /// ```
    pub fn step_within(&mut self, step: &Element, tolerance: f64) -> Result<(), Refusal> {
        self.step_bytes_within(step.as_bytes(), tolerance)
    }

    /// Takes a step at a tolerance, given as its [`ELEMENT_BYTES`] bytes. If it is refused, as [`Refusal::Length`] where
    /// it has another length, what was held is still held, bit for bit.
    ///
    /// ```
    /// use handset::{Element, Held, Refusal};
    ///
    /// let mut held = Held::new();
    /// let received = Element { rotation: [1.0005, 0.0, 0.0, 0.0], ..Element::IDENTITY }.to_bytes();
    /// assert_eq!(held.step_bytes_within(&received, 1e-4), Err(Refusal::NotUnit));
    /// assert_eq!(held.step_bytes_within(&received, 9e-4), Ok(()));
    /// ```
    pub fn step_bytes_within(&mut self, step: &[u8], tolerance: f64) -> Result<(), Refusal> {
        done(entries::compose_in_place_within(
            &mut self.bytes,
            step,
            tolerance,
        ))
    }

    /// What is held, by its values.
    pub fn element(&self) -> Element {
        Element::from_bytes(&self.bytes)
    }

    /// The composed time, which opens the listening slot.
    pub fn time(&self) -> f64 {
        self.element().time
    }

    /// What is held, by its bytes, as [`Element::to_bytes`] gives them.
    pub fn as_bytes(&self) -> &[u8; ELEMENT_BYTES] {
        &self.bytes
    }
}

/// [`Held::new`], the identity.
impl Default for Held {
    fn default() -> Held {
        Held::new()
    }
}

/// Holds the element, whatever its values are. While it is one that a call refuses, each step is refused, and it stays.
///
/// ```
/// use handset::{Element, Held, Refusal};
///
/// let mut held = Held::from(Element { rotation: [2.0, 0.0, 0.0, 0.0], ..Element::IDENTITY });
/// assert_eq!(held.step(&Element::IDENTITY), Err(Refusal::NotUnit));
/// ```
impl From<Element> for Held {
    fn from(element: Element) -> Held {
        Held {
            bytes: element.to_bytes(),
        }
    }
}

impl fmt::Debug for Held {
    fn fmt(&self, f: &mut fmt::Formatter) -> fmt::Result {
        f.debug_tuple("Held").field(&self.element()).finish()
    }
}

//! What a session makes its calls on.

use crate::call::Call;
use crate::tally::Event;
use crate::view::View;
use plain_model::Device;

/// What is not as it should be, ready to print.
#[derive(Debug)]
pub struct Difference(pub String);

pub type Compared<T> = Result<T, Difference>;

/// A device that takes calls, with the plain model of it beside.
pub trait Subject {
    /// Makes a call on the device: the answer, and the bytes that the call lent as it leaves them.
    fn call_for_bytes(&mut self, call: &Call) -> Compared<(i64, Vec<u8>)>;

    /// Makes a call on other words, of any length, sound or not; the device is left alone.
    fn call_on(&mut self, words: &[u32], call: &Call) -> Compared<i64>;

    /// Puts a state; the words have to be sound.
    fn put(&mut self, words: &[u32]) -> Compared<()>;

    fn model(&self) -> &Device;

    /// The words of the device.
    fn words(&self) -> &[u32];

    fn note(&mut self, event: Event);

    /// Makes a call on the device.
    fn call(&mut self, call: &Call) -> Compared<i64> {
        self.call_for_bytes(call).map(|(answer, _)| answer)
    }

    fn view(&self) -> View<'_> {
        View(self.words())
    }
}

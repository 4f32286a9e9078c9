//! The library and the plain model behind one set of calls.

use calls::Call;
use vgic::STATE_WORDS;

/// What is timed: a device that is made of words and takes calls.
pub trait Target: Clone {
    fn of_words(words: &[u32; STATE_WORDS]) -> Self;
    fn words(&self) -> [u32; STATE_WORDS];
    fn call(&mut self, call: &Call, bytes: &mut [u8]) -> i64;
}

/// The library's device, at the start of a cache line.
#[derive(Clone)]
#[repr(align(64))]
pub struct Library(pub [u32; STATE_WORDS]);

impl Target for Library {
    fn of_words(words: &[u32; STATE_WORDS]) -> Library {
        Library(*words)
    }

    fn words(&self) -> [u32; STATE_WORDS] {
        self.0
    }

    #[inline]
    fn call(&mut self, call: &Call, bytes: &mut [u8]) -> i64 {
        call.on_library(&mut self.0, bytes)
    }
}

impl Target for plain_model::Device {
    fn of_words(words: &[u32; STATE_WORDS]) -> plain_model::Device {
        plain_model::Device::from_words(words).expect("the state is sound")
    }

    fn words(&self) -> [u32; STATE_WORDS] {
        let mut words = [0; STATE_WORDS];
        self.to_words(&mut words);
        words
    }

    #[inline]
    fn call(&mut self, call: &Call, bytes: &mut [u8]) -> i64 {
        call.on_model(self, bytes)
    }
}

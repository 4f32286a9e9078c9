//! The calls of the library over slices: numbers in, the library's number out.
//!
//! Each answers a value from 0 up, or minus the number of an [`Errno`](crate::Errno); a refused call changes nothing. What each promises stands at the method of [`Device`](crate::Device) that has its name.
//!
//! ```
//! let mut state = [7; vgic::STATE_WORDS];
//! assert_eq!(vgic::raw::make(&mut state), 0);
//! assert_eq!(vgic::raw::add_vcpu(&mut state, 0x10), -22);
//! assert_eq!(vgic::raw::make(&mut state[1..]), -14);
//! ```

mod library {
    extern "C" {
        pub fn vgic_make(state: *mut u32, words: usize) -> i64;
        pub fn vgic_add_vcpu(state: *mut u32, words: usize, mpidr: u32) -> i64;
        pub fn vgic_set_running(state: *mut u32, words: usize, v: usize, on: bool) -> i64;
        pub fn vgic_read_distributor(
            state: *const u32,
            words: usize,
            v: usize,
            offset: u64,
            size: u64,
        ) -> i64;
        pub fn vgic_write_distributor(
            state: *mut u32,
            words: usize,
            v: usize,
            offset: u64,
            size: u64,
            value: u64,
        ) -> i64;
        pub fn vgic_read_frame(
            state: *const u32,
            words: usize,
            v: usize,
            frame: usize,
            offset: u64,
            size: u64,
        ) -> i64;
        pub fn vgic_write_frame(
            state: *mut u32,
            words: usize,
            v: usize,
            frame: usize,
            offset: u64,
            size: u64,
            value: u64,
        ) -> i64;
        pub fn vgic_read_system(state: *mut u32, words: usize, v: usize, encoding: u64) -> i64;
        pub fn vgic_write_system(
            state: *mut u32,
            words: usize,
            v: usize,
            encoding: u64,
            value: u64,
        ) -> i64;
        pub fn vgic_query_signal(state: *const u32, words: usize, v: usize) -> i64;
        pub fn vgic_change_line(
            state: *mut u32,
            words: usize,
            v: usize,
            id: usize,
            level: bool,
        ) -> i64;
        pub fn vgic_get_attribute(
            state: *const u32,
            words: usize,
            group: u64,
            attribute: u64,
        ) -> i64;
        pub fn vgic_set_attribute(
            state: *mut u32,
            words: usize,
            group: u64,
            attribute: u64,
            value: u64,
        ) -> i64;
        pub fn vgic_save(
            state: *const u32,
            words: usize,
            buf: *mut u8,
            length: usize,
            result: *mut i64,
        );
        pub fn vgic_restore(state: *mut u32, words: usize, bytes: *const u8, length: usize) -> i64;
    }
}

/// Makes a device: every word becomes zero.
pub fn make(state: &mut [u32]) -> i64 {
    // SAFETY: the function is proved safe for every slice, and this one is lent for the call alone.
    unsafe { library::vgic_make(state.as_mut_ptr(), state.len()) }
}

/// Adds a vCPU of an affinity.
pub fn add_vcpu(state: &mut [u32], mpidr: u32) -> i64 {
    // SAFETY: the function is proved safe for every slice, and this one is lent for the call alone.
    unsafe { library::vgic_add_vcpu(state.as_mut_ptr(), state.len(), mpidr) }
}

/// Marks a vCPU as running, or as stopped.
pub fn set_running(state: &mut [u32], v: usize, on: bool) -> i64 {
    // SAFETY: the function is proved safe for every slice, and this one is lent for the call alone.
    unsafe { library::vgic_set_running(state.as_mut_ptr(), state.len(), v, on) }
}

/// Reads `size` bytes of the distributor.
pub fn read_distributor(state: &[u32], v: usize, offset: u64, size: u64) -> i64 {
    // SAFETY: the function is proved safe for every slice, and only reads this one.
    unsafe { library::vgic_read_distributor(state.as_ptr(), state.len(), v, offset, size) }
}

/// Writes `size` bytes of the distributor.
pub fn write_distributor(state: &mut [u32], v: usize, offset: u64, size: u64, value: u64) -> i64 {
    let words = state.len();
    // SAFETY: the function is proved safe for every slice, and this one is lent for the call alone.
    unsafe { library::vgic_write_distributor(state.as_mut_ptr(), words, v, offset, size, value) }
}

/// Reads `size` bytes of the redistributor frame of a vCPU.
pub fn read_frame(state: &[u32], v: usize, frame: usize, offset: u64, size: u64) -> i64 {
    // SAFETY: the function is proved safe for every slice, and only reads this one.
    unsafe { library::vgic_read_frame(state.as_ptr(), state.len(), v, frame, offset, size) }
}

/// Writes `size` bytes of the redistributor frame of a vCPU.
pub fn write_frame(
    state: &mut [u32],
    v: usize,
    frame: usize,
    offset: u64,
    size: u64,
    value: u64,
) -> i64 {
    let words = state.len();
    // SAFETY: the function is proved safe for every slice, and this one is lent for the call alone.
    unsafe { library::vgic_write_frame(state.as_mut_ptr(), words, v, frame, offset, size, value) }
}

/// Reads the system register of an encoding.
pub fn read_system(state: &mut [u32], v: usize, encoding: u64) -> i64 {
    // SAFETY: the function is proved safe for every slice, and this one is lent for the call alone.
    unsafe { library::vgic_read_system(state.as_mut_ptr(), state.len(), v, encoding) }
}

/// Writes the system register of an encoding.
pub fn write_system(state: &mut [u32], v: usize, encoding: u64, value: u64) -> i64 {
    // SAFETY: the function is proved safe for every slice, and this one is lent for the call alone.
    unsafe { library::vgic_write_system(state.as_mut_ptr(), state.len(), v, encoding, value) }
}

/// 1 if IAR1, 2 if IAR0 would give the vCPU an interrupt, else 0.
pub fn query_signal(state: &[u32], v: usize) -> i64 {
    // SAFETY: the function is proved safe for every slice, and only reads this one.
    unsafe { library::vgic_query_signal(state.as_ptr(), state.len(), v) }
}

/// Changes the line of a PPI of a vCPU, or of an SPI.
pub fn change_line(state: &mut [u32], v: usize, id: usize, level: bool) -> i64 {
    // SAFETY: the function is proved safe for every slice, and this one is lent for the call alone.
    unsafe { library::vgic_change_line(state.as_mut_ptr(), state.len(), v, id, level) }
}

/// Gets an attribute of a group.
pub fn get_attribute(state: &[u32], group: u64, attribute: u64) -> i64 {
    // SAFETY: the function is proved safe for every slice, and only reads this one.
    unsafe { library::vgic_get_attribute(state.as_ptr(), state.len(), group, attribute) }
}

/// Sets an attribute of a group.
pub fn set_attribute(state: &mut [u32], group: u64, attribute: u64, value: u64) -> i64 {
    let words = state.len();
    // SAFETY: the function is proved safe for every slice, and this one is lent for the call alone.
    unsafe { library::vgic_set_attribute(state.as_mut_ptr(), words, group, attribute, value) }
}

/// Fills the front of a buffer with the record, whose length is the answer.
pub fn save(state: &[u32], buf: &mut [u8]) -> i64 {
    let (words, length, mut result) = (state.len(), buf.len(), 0);
    // SAFETY: the function is proved safe for every two slices, and these and the number are lent for the call alone.
    unsafe {
        library::vgic_save(state.as_ptr(), words, buf.as_mut_ptr(), length, &mut result);
    }
    result
}

/// Restores the device of a record into a fresh one.
pub fn restore(state: &mut [u32], bytes: &[u8]) -> i64 {
    let (words, length) = (state.len(), bytes.len());
    // SAFETY: the function is proved safe for every two slices, and the state is lent for the call alone.
    unsafe { library::vgic_restore(state.as_mut_ptr(), words, bytes.as_ptr(), length) }
}

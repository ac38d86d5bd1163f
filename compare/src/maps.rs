//! The hash map of this implementation: the standard library's, or for the bench one with a quick hash.

#[cfg(not(feature = "quick-hash"))]
pub type Map<K, V> = std::collections::HashMap<K, V>;

#[cfg(feature = "quick-hash")]
pub type Map<K, V> =
    std::collections::HashMap<K, V, std::hash::BuildHasherDefault<quick::QuickHasher>>;

#[cfg(feature = "quick-hash")]
mod quick {
    use std::hash::Hasher;

    /// One multiplication for each number of a key.
    #[derive(Default)]
    pub struct QuickHasher {
        state: u64,
    }

    impl Hasher for QuickHasher {
        fn write(&mut self, bytes: &[u8]) {
            bytes.iter().for_each(|&byte| self.write_u64(byte.into()));
        }

        fn write_u64(&mut self, number: u64) {
            let mixed = (self.state.rotate_left(5) ^ number).wrapping_mul(0x9e37_79b9_7f4a_7c15);
            self.state = mixed ^ (mixed >> 32);
        }

        fn finish(&self) -> u64 {
            self.state
        }
    }
}

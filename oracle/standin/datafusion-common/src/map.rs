//! The map that the merge counts uses in.

/// [D5] The crate re-exports a faster map than std's; this one is std's table with a cheap hash. Only the speed depends on
/// it.
pub struct HashMap<K, V>(std::collections::HashMap<K, V, std::hash::BuildHasherDefault<Fx>>);
impl<K, V> HashMap<K, V> {
    #[allow(clippy::new_without_default)]
    pub fn new() -> Self {
        Self(std::collections::HashMap::default())
    }
}
impl<K: std::hash::Hash + Eq, V: Default> HashMap<K, V> {
    pub fn at(&mut self, k: K) -> &mut V {
        self.0.entry(k).or_default()
    }
}
impl<K, V> IntoIterator for HashMap<K, V> {
    type Item = (K, V);
    type IntoIter = std::collections::hash_map::IntoIter<K, V>;
    fn into_iter(self) -> Self::IntoIter {
        self.0.into_iter()
    }
}
#[derive(Default)]
pub struct Fx(u64);
impl std::hash::Hasher for Fx {
    fn finish(&self) -> u64 {
        self.0
    }
    fn write(&mut self, bytes: &[u8]) {
        for c in bytes.chunks(8) {
            let mut w = [0u8; 8];
            w[..c.len()].copy_from_slice(c);
            self.0 = (self.0.rotate_left(5) ^ u64::from_le_bytes(w)).wrapping_mul(0x517c_c1b7_2722_0a95);
        }
    }
}

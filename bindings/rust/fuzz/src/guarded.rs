//! Words or bytes with others on both sides that no call may write.

/// So many stand on each side.
const GUARDS: usize = 8;

pub trait Unit: Copy + PartialEq {
    const GUARD: Self;
}

impl Unit for u64 {
    const GUARD: u64 = 0x6775_6172_6465_6421;
}

impl Unit for u8 {
    const GUARD: u8 = 0x67;
}

#[derive(Default)]
pub struct Guarded<T = u64>(Vec<T>);

impl<T: Unit> Guarded<T> {
    pub fn load(&mut self, units: &[T]) {
        self.0.clear();
        self.0.extend([T::GUARD; GUARDS]);
        self.0.extend(units);
        self.0.extend([T::GUARD; GUARDS]);
    }

    fn within(&self) -> &[T] {
        &self.0[GUARDS..self.0.len() - GUARDS]
    }

    fn within_mut(&mut self) -> &mut [T] {
        let end = self.0.len() - GUARDS;
        &mut self.0[GUARDS..end]
    }

    pub fn stands(&self) -> bool {
        let end = self.0.len() - GUARDS;
        self.0[..GUARDS] == [T::GUARD; GUARDS] && self.0[end..] == [T::GUARD; GUARDS]
    }
}

impl Guarded {
    pub fn words(&self) -> &[u64] {
        self.within()
    }

    pub fn words_mut(&mut self) -> &mut [u64] {
        self.within_mut()
    }
}

impl Guarded<u8> {
    pub fn bytes(&self) -> &[u8] {
        self.within()
    }

    pub fn bytes_mut(&mut self) -> &mut [u8] {
        self.within_mut()
    }
}

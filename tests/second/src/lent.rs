//! Lent buffers: full of a pattern, with numbers before and behind that nobody may touch.

/// The numbers on each side of a lent buffer.
const MARGIN: usize = 16;

/// What a number is before the call. It differs from place to place, so that nothing that is
/// written everywhere can be taken for it.
pub trait Pattern: Copy + PartialEq + std::fmt::Debug {
    fn at(place: usize) -> Self;
}

fn mixed(place: usize) -> u64 {
    (place as u64 + 1).wrapping_mul(0x9E37_79B9_7F4A_7C15)
}

impl Pattern for u8 {
    fn at(place: usize) -> u8 {
        (mixed(place) >> 56) as u8
    }
}

impl Pattern for u16 {
    fn at(place: usize) -> u16 {
        (mixed(place) >> 48) as u16
    }
}

impl Pattern for u64 {
    fn at(place: usize) -> u64 {
        mixed(place)
    }
}

#[derive(Clone)]
pub struct Lent<T> {
    all: Vec<T>,
    count: usize,
}

impl<T: Pattern> Lent<T> {
    pub fn new(count: usize) -> Lent<T> {
        let all = (0..count + 2 * MARGIN).map(T::at).collect();
        Lent { all, count }
    }

    /// The part that is lent.
    pub fn part(&self) -> &[T] {
        &self.all[MARGIN..MARGIN + self.count]
    }

    pub fn lend(&mut self) -> &mut [T] {
        &mut self.all[MARGIN..MARGIN + self.count]
    }

    /// Is everything equal, the margins too?
    pub fn equals(&self, other: &Lent<T>) -> bool {
        self.all == other.all
    }

    /// The first place that differs, counted from the first lent number, and what stands there.
    pub fn difference(&self, other: &Lent<T>) -> Option<(isize, T, T)> {
        let both = self.all.iter().zip(&other.all);
        let mut places = both.zip(-(MARGIN as isize)..);
        let found = places.find(|((own, others), _)| own != others);
        found.map(|((&own, &others), place)| (place, own, others))
    }
}

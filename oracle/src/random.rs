//! Random numbers that a seed repeats: xorshift, with one stream for each call of the interface.

pub struct Random {
    state: u64,
}

impl Random {
    pub fn new(seed: u64, stream: &str) -> Random {
        let mut state = seed ^ 0x9e37_79b9_7f4a_7c15;
        for byte in stream.bytes() {
            state = (state ^ u64::from(byte)).wrapping_mul(0x0000_0100_0000_01b3);
        }
        // xorshift stays at 0 for ever
        let mut random = Random { state: state | 1 };
        for _ in 0..16 {
            random.next();
        }
        random
    }

    fn next(&mut self) -> u64 {
        self.state ^= self.state >> 12;
        self.state ^= self.state << 25;
        self.state ^= self.state >> 27;
        self.state.wrapping_mul(0x2545_f491_4f6c_dd1d)
    }

    /// A number below n.
    pub fn below(&mut self, n: usize) -> usize {
        ((self.next() >> 32) as usize * n) >> 32
    }

    /// A number from low to high, both among them.
    pub fn between(&mut self, low: usize, high: usize) -> usize {
        low + self.below(high - low + 1)
    }

    /// True once in n times.
    pub fn once_in(&mut self, n: usize) -> bool {
        self.below(n) == 0
    }

    pub fn byte(&mut self) -> u8 {
        self.below(256) as u8
    }

    pub fn bytes(&mut self, n: usize) -> Vec<u8> {
        (0..n).map(|_| self.byte()).collect()
    }

    pub fn pick<'a, T: ?Sized>(&mut self, from: &[&'a T]) -> &'a T {
        from[self.below(from.len())]
    }

    pub fn pick_byte(&mut self, from: &[u8]) -> u8 {
        from[self.below(from.len())]
    }

    /// An index, each as often as its weight says.
    pub fn weighted(&mut self, weights: &[usize]) -> usize {
        let at = self.below(weights.iter().sum());
        let ends = (1..=weights.len()).map(|n| weights[..n].iter().sum::<usize>());
        ends.take_while(|end| *end <= at).count()
    }

    /// A number from one of some ranges, both ends among them, each range as often as its weight says.
    pub fn ranged(&mut self, ranges: &[(usize, usize, usize)]) -> usize {
        let weights: Vec<usize> = ranges.iter().map(|range| range.0).collect();
        let (_, low, high) = ranges[self.weighted(&weights)];
        match low == high {
            true => low,
            false => self.between(low, high),
        }
    }

    /// Puts a list in another order.
    pub fn shuffle<T>(&mut self, list: &mut [T]) {
        for i in (1..list.len()).rev() {
            list.swap(i, self.between(0, i));
        }
    }
}

/// Something that serves some inputs before the next is made.
pub struct Served<T> {
    now: Option<T>,
    left: usize,
}

impl<T> Default for Served<T> {
    fn default() -> Served<T> {
        Served { now: None, left: 0 }
    }
}

impl<T> Served<T> {
    /// What serves the next input; `make` also tells how many inputs a new one serves.
    pub fn next(&mut self, make: impl FnOnce() -> (T, usize)) -> &mut T {
        if self.left == 0 {
            let (made, left) = make();
            *self = Served { now: Some(made), left };
        }
        self.left -= 1;
        self.now()
    }

    /// What serves now, to be changed for the inputs to come.
    pub fn now(&mut self) -> &mut T {
        self.now.as_mut().expect("it is made by now")
    }

    /// Lets it serve no more than so many.
    pub fn serve_at_most(&mut self, most: usize) {
        self.left = self.left.min(most);
    }
}

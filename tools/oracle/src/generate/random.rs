//! A small seeded source of numbers (splitmix64): the same seed gives the same cases everywhere.

pub struct Random {
    state: u64,
}

impl Random {
    pub fn new(seed: u64) -> Self {
        Self { state: seed }
    }

    pub fn number(&mut self) -> u64 {
        self.state = self.state.wrapping_add(0x9e37_79b9_7f4a_7c15);
        let mut z = self.state;
        z = (z ^ (z >> 30)).wrapping_mul(0xbf58_476d_1ce4_e5b9);
        z = (z ^ (z >> 27)).wrapping_mul(0x94d0_49bb_1331_11eb);
        z ^ (z >> 31)
    }

    /// A number from 0, below `end`, which is at least 1.
    pub fn below(&mut self, end: usize) -> usize {
        (self.number() % end as u64) as usize
    }

    /// True so many times in a hundred.
    pub fn percent(&mut self, share: usize) -> bool {
        self.below(100) < share
    }

    pub fn one_of<T: Clone>(&mut self, choices: &[T]) -> T {
        choices[self.below(choices.len())].clone()
    }

    /// One of the choices, if there is any.
    pub fn any_of<T: Clone>(&mut self, choices: &[T]) -> Option<T> {
        (!choices.is_empty()).then(|| self.one_of(choices))
    }

    /// One of the choices, each as often as its share says.
    pub fn weighted<T: Copy>(&mut self, choices: &[(T, usize)]) -> T {
        let mut left = self.below(choices.iter().map(|(_, share)| share).sum());
        let chosen = choices.iter().find(|(_, share)| {
            let here = left < *share;
            left = left.saturating_sub(*share);
            here
        });
        chosen.expect("the shares add up").0
    }

    pub fn shuffle<T>(&mut self, list: &mut [T]) {
        for i in (1..list.len()).rev() {
            list.swap(i, self.below(i + 1));
        }
    }

    /// Up to `count` of the choices, each at most once, in the order in which they stand.
    pub fn some_of<T: Clone>(&mut self, count: usize, choices: &[T]) -> Vec<T> {
        let mut places: Vec<usize> = (0..choices.len()).collect();
        self.shuffle(&mut places);
        places.truncate(count);
        places.sort_unstable();
        places.into_iter().map(|i| choices[i].clone()).collect()
    }

    /// How many records a table of so many slots starts with: mostly few, at times full or one or two short of it.
    pub fn fill(&mut self, slots: usize) -> usize {
        match self.below(100) {
            0..80 => self.below(slots.min(6)),
            80..88 => self.below(slots + 1),
            _ => slots - self.below(slots.min(3)),
        }
    }
}

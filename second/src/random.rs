//! A small seeded source of numbers (splitmix64), so that one seed always gives the
//! same trace or switch.

/// A source of numbers.
pub struct Random {
    state: u64,
}

impl Random {
    /// A source that begins at the given seed.
    pub fn new(seed: u64) -> Random {
        Random { state: seed }
    }

    /// The next 64 bits, by the published splitmix64.
    pub fn draw(&mut self) -> u64 {
        self.state = self.state.wrapping_add(0x9e37_79b9_7f4a_7c15);
        let mut z = self.state;
        z = (z ^ (z >> 30)).wrapping_mul(0xbf58_476d_1ce4_e5b9);
        z = (z ^ (z >> 27)).wrapping_mul(0x94d0_49bb_1331_11eb);
        z ^ (z >> 31)
    }

    /// A number from `low` to `high`, both included.
    pub fn between(&mut self, low: u32, high: u32) -> u32 {
        let numbers = u64::from(high - low) + 1;
        low + (self.draw() % numbers) as u32
    }

    /// A place in a list of this length.
    pub fn place(&mut self, length: usize) -> usize {
        (self.draw() % length as u64) as usize
    }

    /// One of the numbers of a list.
    pub fn one_of(&mut self, list: &[u32]) -> u32 {
        list[self.place(list.len())]
    }

    /// True once in so many times.
    pub fn once_in(&mut self, times: u32) -> bool {
        self.between(1, times) == 1
    }
}

/// The first seed of a series of tries: the number in the environment under
/// `SECOND_SEED` if there is one, else the one given. It is printed.
pub fn first_seed(otherwise: u64) -> u64 {
    let seed = match std::env::var("SECOND_SEED") {
        Ok(text) => text.parse().expect("SECOND_SEED is not a number"),
        Err(_) => otherwise,
    };
    println!("first seed {seed}");
    seed
}

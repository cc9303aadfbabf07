//! Numbers from a seed (the splitmix64 sequence).

pub struct Dice(u64);

impl Dice {
    /// A sequence of its own for each seed, kind and number.
    pub fn new(seed: u64, kind: u64, number: u64) -> Dice {
        let mut dice = Dice(seed);
        for part in [kind, number] {
            dice.0 = dice.next() ^ part;
        }
        dice
    }

    pub fn next(&mut self) -> u64 {
        self.0 = self.0.wrapping_add(0x9e37_79b9_7f4a_7c15);
        let mut z = self.0;
        z = (z ^ (z >> 30)).wrapping_mul(0xbf58_476d_1ce4_e5b9);
        z = (z ^ (z >> 27)).wrapping_mul(0x94d0_49bb_1331_11eb);
        z ^ (z >> 31)
    }

    /// 0 to n - 1.
    pub fn below(&mut self, n: u64) -> u64 {
        self.next() % n
    }

    /// The same, as an argument of a trace entry.
    pub fn under(&mut self, n: u32) -> u32 {
        self.below(n.into()) as u32
    }

    pub fn one_in(&mut self, n: u64) -> bool {
        self.below(n) == 0
    }

    pub fn pick<T: Copy>(&mut self, from: &[T]) -> T {
        from[self.below(from.len() as u64) as usize]
    }

    pub fn bytes(&mut self, length: usize) -> Vec<u8> {
        (0..length).map(|_| self.next() as u8).collect()
    }

    /// The length of a buffer for a packet of this length: too short, just enough, longer.
    pub fn room(&mut self, length: u32) -> u32 {
        match self.below(8) {
            0 => 0,
            1 => length.saturating_sub(1),
            2 | 3 => length,
            4 => (length + 1).min(512),
            5 => 64,
            _ => 512,
        }
    }

    /// The eight bytes of a Setup packet that asks for this length in this direction (1 in, 0 out).
    pub fn setup(&mut self, direction: u32, length: u32) -> Vec<u8> {
        let mut packet = self.bytes(8);
        packet[0] = packet[0] & 0x7f | (direction as u8) << 7;
        packet[6..].copy_from_slice(&(length as u16).to_le_bytes());
        packet
    }

    /// A Setup packet whose length is 0, small, beside a packet's size, or anything.
    pub fn any_setup(&mut self) -> Vec<u8> {
        let direction = self.under(2);
        let length = match self.below(4) {
            0 => 0,
            1 => self.under(20),
            2 => self.pick(&[1, 8, 63, 64, 65, 127, 128, 129, 192, 255, 256, 65_535]),
            _ => self.under(65_536),
        };
        self.setup(direction, length)
    }
}

//! The generator, and the numbers that are asked for, as `bench/peers/documents.c` makes them.

/// In which order documents are asked for.
#[derive(Debug, Clone, Copy)]
pub enum Order {
    /// Each as often as the others.
    Uniform,
    /// Fifteen of sixteen times one of the first ones.
    Hot,
    /// The first ones the more often.
    Zipf,
    /// One after the other.
    Sequence,
}

const SEED: u64 = 1_234_567_890_123_456_789;
const WHOLE_EVERY: u64 = 16;

/// A generator of numbers of 64 bits.
#[derive(Debug)]
pub struct Generator(u64);

impl Generator {
    /// It begins after `seed`, which is not 0.
    pub fn new(seed: u64) -> Generator {
        Generator(seed)
    }

    /// The next number.
    pub fn step(&mut self) -> u64 {
        self.0 ^= self.0 << 13;
        self.0 ^= self.0 >> 7;
        self.0 ^= self.0 << 17;
        self.0
    }

    fn below(&mut self, end: usize) -> usize {
        (self.step() % end as u64) as usize
    }
}

/// `questions` numbers below `count`, of which the first `hot` are asked for most in the order of that name.
pub fn numbers(order: Order, questions: usize, count: usize, hot: usize) -> Vec<u32> {
    let mut generator = Generator::new(SEED);
    let digits = usize::BITS - count.leading_zeros();
    let mut next = |question: usize| match order {
        Order::Uniform => generator.below(count),
        Order::Hot if generator.step() % WHOLE_EVERY == 0 => generator.below(count),
        Order::Hot => generator.below(hot.min(count)),
        Order::Zipf => {
            let front = count >> generator.below(digits as usize);
            generator.below(front.max(1))
        }
        Order::Sequence => question % count,
    };
    (0..questions)
        .map(|question| next(question) as u32)
        .collect()
}

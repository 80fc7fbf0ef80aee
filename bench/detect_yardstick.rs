//! Detectors in plain Rust: four rms values, two changes and a frequency, over 8 and over 16 channels, and
//! six detectors of each kind. It prints the least time of a number of runs, and how many bits are 1.
//!
//!     rustc -O -C target-cpu=x86-64 bench/detect_yardstick.rs -o /tmp/yardstick && /tmp/yardstick 21
//!     /tmp/yardstick 1 harmonic 8 3    # one kind over 8 channels, three rounds of 9600 scans: for counts of instructions

use std::time::Instant;

const CYCLE: u32 = 96;
const SCAN: u64 = 65_536;

/// The last samples, and the sum of their squares.
struct Window {
    ring: Vec<i64>,
    next: usize,
    len: usize,
    squares: u128,
}

impl Window {
    fn new(places: usize) -> Window {
        Window { ring: vec![0; places], next: 0, len: 0, squares: 0 }
    }

    #[inline(always)]
    fn push(&mut self, x: i64) {
        let size = u128::from(x.unsigned_abs());
        let old = self.ring[self.next];
        if self.len == self.ring.len() {
            let gone = u128::from(old.unsigned_abs());
            self.squares -= gone * gone;
        } else {
            self.len += 1;
        }
        self.squares += size * size;
        self.ring[self.next] = x;
        self.next = if self.next + 1 == self.ring.len() { 0 } else { self.next + 1 };
    }

    #[inline(always)]
    fn oldest(&self) -> i64 {
        self.ring[self.next]
    }

    #[inline(always)]
    fn newest(&self) -> i64 {
        self.ring[if self.next == 0 { self.ring.len() - 1 } else { self.next - 1 }]
    }

    #[inline(always)]
    fn ago(&self, scans: usize) -> i64 {
        self.ring[if scans < self.next { self.next - 1 - scans } else { self.next + self.ring.len() - 1 - scans }]
    }

    fn clear(&mut self) {
        (self.next, self.len, self.squares) = (0, 0, 0);
    }

    #[inline(always)]
    fn is_full(&self) -> bool {
        self.len == self.ring.len()
    }
}

/// What is known of the crossings of 0 since the last gap.
struct Pace {
    least: u64,
    far: u64,
    dips: bool,
    last: u64,
    age: u64,
    times: Vec<u64>,
    next: usize,
    total: u64,
}

impl Pace {
    fn clear(&mut self) {
        self.dips = false;
        self.last = 0;
        self.age = self.far;
        self.times.fill(self.far);
        self.total = self.far * self.times.len() as u64;
        self.next = 0;
    }

    #[inline(always)]
    fn push(&mut self, x: i64) {
        let size = x.unsigned_abs();
        if x >= 0 && self.dips {
            let since = SCAN * size / (size + self.last);
            let span = self.far.min(self.age + SCAN - since);
            self.total = self.total - self.times[self.next] + span;
            self.times[self.next] = span;
            self.next = if self.next + 1 == self.times.len() { 0 } else { self.next + 1 };
            self.dips = false;
            self.age = since;
        } else {
            self.dips = x < 0 && (self.least <= size || self.dips);
            self.age = self.far.min(self.age + SCAN);
        }
        self.last = size;
    }
}

/// A cosine and a sine, in 16384ths.
#[derive(Clone, Copy)]
struct Turn {
    cosine: i64,
    sine: i64,
}

fn turn(part: f64) -> Turn {
    let angle = part * std::f64::consts::TAU;
    Turn { cosine: (16384.0 * angle.cos()).round() as i64, sine: (16384.0 * angle.sin()).round() as i64 }
}

#[derive(Clone, Copy, Default)]
struct Phasor {
    real: i128,
    imaginary: i128,
}

impl Phasor {
    #[inline(always)]
    fn power(&self) -> u128 {
        let part = |x: i128| u128::from((x.unsigned_abs() / 16_384) as u64);
        let (real, imaginary) = (part(self.real), part(self.imaginary));
        real * real + imaginary * imaginary
    }
}

/// The correlation of the last samples of P phases with W waves.
struct Waves<const P: usize, const W: usize> {
    table: Vec<[[Turn; P]; W]>,
    ring: Vec<[i64; P]>,
    next: usize,
    len: usize,
    phasors: [Phasor; W],
}

impl<const P: usize, const W: usize> Waves<P, W> {
    /// The orders of the waves, and the thirds of a turn by which each phase is turned.
    fn new(scans: usize, shapes: [(usize, [usize; P]); W]) -> Self {
        let at = |i: usize| shapes.map(|(order, thirds)| thirds.map(|t| turn((order * i) as f64 / scans as f64 + t as f64 / 3.0)));
        Waves { table: (0..scans).map(at).collect(), ring: vec![[0; P]; scans], next: 0, len: 0, phasors: [Phasor::default(); W] }
    }

    #[inline(always)]
    fn push(&mut self, x: [i64; P]) {
        let mut change = x;
        if self.len == self.ring.len() {
            for phase in 0..P {
                change[phase] -= self.ring[self.next][phase];
            }
        } else {
            self.len += 1;
        }
        self.ring[self.next] = x;
        let turns = &self.table[self.next];
        for wave in 0..W {
            let (mut real, mut imaginary) = (0i64, 0i64);
            for phase in 0..P {
                real += turns[wave][phase].cosine * change[phase];
                imaginary += turns[wave][phase].sine * change[phase];
            }
            self.phasors[wave].real += i128::from(real);
            self.phasors[wave].imaginary += i128::from(imaginary);
        }
        self.next = if self.next + 1 == self.ring.len() { 0 } else { self.next + 1 };
    }

    #[inline(always)]
    fn is_full(&self) -> bool {
        self.len == self.ring.len()
    }

    fn clear(&mut self) {
        (self.next, self.len, self.phasors) = (0, 0, [Phasor::default(); W]);
    }
}

enum Condition {
    RmsOver,
    RmsUnder,
    Change,
    Jump,
    FrequencyUnder { rate: u64, cycles: u64 },
    Harmonic { least: u64, waves: Waves<1, 2> },
    SequenceOver { waves: Waves<3, 1> },
    Unbalance { least: u64, waves: Waves<3, 2> },
}

#[inline(always)]
fn twice_power(scans: u64, rms: u64) -> u128 {
    let (scans, rms) = (u128::from(scans), u128::from(rms));
    scans * scans * (rms * rms)
}

#[inline(always)]
fn is_share(level: u64, first: u128, other: u128) -> bool {
    let level = u128::from(level);
    level * level * first <= 1_000_000 * other
}

struct Detector {
    condition: Condition,
    channels: Vec<usize>,
    scans: u64,
    level: u64,
    reset: u64,
    asked: u32,
    window: Window,
    pace: Pace,
    row: u32,
    on: bool,
}

impl Detector {
    #[inline(always)]
    fn is_met(&self, level: u64) -> bool {
        let squares = || u128::from(self.scans) * (u128::from(level) * u128::from(level));
        match &self.condition {
            Condition::RmsOver => self.window.is_full() && squares() <= self.window.squares,
            Condition::RmsUnder => self.window.is_full() && self.window.squares <= squares(),
            Condition::Change => self.window.is_full() && level <= (self.window.newest() - self.window.oldest()).unsigned_abs(),
            Condition::Jump => {
                let scans = self.scans as usize;
                let (newest, middle, oldest) = (self.window.newest(), self.window.ago(scans), self.window.oldest());
                self.window.is_full() && level <= ((newest - middle) - (middle - oldest)).unsigned_abs()
            }
            Condition::FrequencyUnder { rate, cycles } => {
                self.pace.age + self.pace.total < self.pace.far
                    && 1000 * u128::from(*rate) * u128::from(cycles * SCAN) <= u128::from(level) * u128::from(self.pace.total)
            }
            Condition::Harmonic { least, waves } => {
                let (first, other) = (waves.phasors[0].power(), waves.phasors[1].power());
                waves.is_full() && twice_power(self.scans, *least) <= 2 * first && is_share(level, first, other)
            }
            Condition::SequenceOver { waves } => waves.is_full() && twice_power(self.scans, 3 * level) <= 2 * waves.phasors[0].power(),
            Condition::Unbalance { least, waves } => {
                let (first, other) = (waves.phasors[0].power(), waves.phasors[1].power());
                waves.is_full() && twice_power(self.scans, 3 * least) <= 2 * first && is_share(level, first, other)
            }
        }
    }

    fn clear(&mut self) {
        self.window.clear();
        self.pace.clear();
        match &mut self.condition {
            Condition::Harmonic { waves, .. } => waves.clear(),
            Condition::SequenceOver { waves } => waves.clear(),
            Condition::Unbalance { waves, .. } => waves.clear(),
            _ => (),
        }
        (self.row, self.on) = (0, false);
    }

    #[inline(always)]
    fn sum(&self, readings: &[Option<i32>]) -> Option<i64> {
        let mut sum = 0i64;
        for channel in &self.channels {
            match readings.get(*channel) {
                Some(Some(x)) => sum += i64::from(*x),
                _ => return None,
            }
        }
        Some(sum)
    }

    #[inline(always)]
    fn phases(&self, readings: &[Option<i32>]) -> Option<[i64; 3]> {
        let phase = |place: usize| match self.channels.get(place) {
            Some(channel) => match readings.get(*channel) {
                Some(Some(x)) => Some(i64::from(*x)),
                _ => None,
            },
            None => None,
        };
        Some([phase(0)?, phase(1)?, phase(2)?])
    }

    /// Takes in a sample, if the scan has one.
    #[inline(always)]
    fn take_in(&mut self, readings: &[Option<i32>]) -> Option<()> {
        match &self.condition {
            Condition::SequenceOver { .. } | Condition::Unbalance { .. } => {
                let x = self.phases(readings)?;
                match &mut self.condition {
                    Condition::SequenceOver { waves } => waves.push(x),
                    Condition::Unbalance { waves, .. } => waves.push(x),
                    _ => (),
                }
            }
            _ => {
                let x = self.sum(readings)?;
                match &mut self.condition {
                    Condition::FrequencyUnder { .. } => self.pace.push(x),
                    Condition::Harmonic { waves, .. } => waves.push([x]),
                    _ => self.window.push(x),
                }
            }
        }
        Some(())
    }

    #[inline(always)]
    fn step(&mut self, readings: &[Option<i32>]) -> bool {
        if self.take_in(readings).is_none() {
            self.clear();
            return false;
        }
        let met = self.is_met(self.level);
        let stays = self.on && self.is_met(self.reset);
        self.row = if met { (self.row + 1).min(self.asked) } else { 0 };
        self.on = self.row >= self.asked || stays;
        self.on
    }
}

fn detector(condition: Condition, scans: u32, level: u64, channels: &[usize]) -> Detector {
    let places = match condition {
        Condition::Change => scans as usize + 1,
        Condition::Jump => 2 * scans as usize + 1,
        Condition::RmsOver | Condition::RmsUnder => scans as usize,
        _ => 1,
    };
    let cycles = if let Condition::FrequencyUnder { cycles, .. } = condition { cycles as usize } else { 1 };
    let far = u64::from(scans) * SCAN + 1;
    let mut pace = Pace { least: 1000, far, dips: false, last: 0, age: far, times: vec![far; cycles], next: 0, total: 0 };
    pace.clear();
    Detector {
        condition,
        channels: channels.to_vec(),
        scans: u64::from(scans),
        level,
        reset: level,
        asked: 3,
        window: Window::new(places),
        pace,
        row: 0,
        on: false,
    }
}

fn seven() -> Vec<Detector> {
    vec![
        detector(Condition::RmsUnder, CYCLE, 12_000, &[0]),
        detector(Condition::RmsUnder, CYCLE, 12_000, &[1]),
        detector(Condition::RmsOver, CYCLE, 30_000, &[3]),
        detector(Condition::RmsOver, CYCLE, 2_000, &[3, 4, 5]),
        detector(Condition::Change, CYCLE, 500, &[4]),
        detector(Condition::Change, 48, 40_000, &[5]),
        detector(Condition::FrequencyUnder { rate: 4800, cycles: 5 }, 10 * CYCLE, 50_000, &[0]),
    ]
}

/// Six detectors of a kind, as many as of the mix's.
fn six(kind: &str, channels: usize) -> Vec<Detector> {
    let one = |place: usize| [place % channels];
    let three = |place: usize| [place % channels, (place + 1) % channels, (place + 2) % channels];
    let scans = CYCLE as usize;
    let of = |place: usize| match kind {
        "rms" => detector(Condition::RmsOver, CYCLE, 30_000, &one(place)),
        "sum" => detector(Condition::RmsOver, CYCLE, 2_000, &three(place)),
        "change" => detector(Condition::Change, CYCLE, 500, &one(place)),
        "jump" => detector(Condition::Jump, CYCLE, 500, &one(place)),
        "frequency" => detector(Condition::FrequencyUnder { rate: 4800, cycles: 5 }, 10 * CYCLE, 50_000, &one(place)),
        "harmonic" => detector(Condition::Harmonic { least: 1000, waves: Waves::new(scans, [(1, [0]), (2, [0])]) }, CYCLE, 150, &one(place)),
        "sequence" => detector(Condition::SequenceOver { waves: Waves::new(scans, [(1, [0, 1, 2])]) }, CYCLE, 3_000, &three(place)),
        _ => detector(Condition::Unbalance { least: 1000, waves: Waves::new(scans, [(1, [0, 2, 1]), (1, [0, 1, 2])]) }, CYCLE, 200, &three(place)),
    };
    (0..6).map(of).collect()
}

fn of_kind(kind: &str, channels: usize) -> Vec<Detector> {
    if kind == "mix" { seven() } else { six(kind, channels) }
}

fn sample(scan: u32, channel: u32) -> i32 {
    let k = ((scan % CYCLE + channel % CYCLE * 32) % CYCLE) as i32;
    if k < 48 { 40 * k * (48 - k) } else { -40 * (k - 48) * (96 - k) }
}

fn take_in(list: &mut [Detector], bits: &mut Vec<bool>, scans: &[Vec<Option<i32>>], rounds: u32) -> u64 {
    let mut ones = 0;
    for _ in 0..rounds {
        for readings in scans {
            bits.clear();
            for detector in list.iter_mut() {
                bits.push(detector.step(readings));
            }
            ones += bits.iter().filter(|b| **b).count() as u64;
        }
    }
    ones
}

fn measure(runs: u32, kind: &str, channels: u32, rounds: u32) {
    let scans: Vec<Vec<Option<i32>>> = (0..9_600).map(|k| (0..channels).map(|c| Some(sample(k, c))).collect()).collect();
    let (mut least, mut ones, mut of) = (u128::MAX, 0u64, 0);
    for _ in 0..runs {
        let (mut list, mut bits) = (of_kind(kind, channels as usize), Vec::with_capacity(7));
        let start = Instant::now();
        ones = take_in(&mut list, &mut bits, &scans, rounds);
        least = least.min(start.elapsed().as_nanos());
        of = u64::from(rounds) * 9_600 * list.len() as u64;
    }
    println!("{kind}, {channels} channels: {least} ns for {of}\n{ones} bits are 1");
}

fn main() {
    let words: Vec<String> = std::env::args().collect();
    let number = |place: usize, or: u32| words.get(place).map_or(or, |w| w.parse().unwrap());
    let runs = number(1, 1);
    if let Some(kind) = words.get(2) {
        return measure(runs, kind, number(3, 8), number(4, 100));
    }
    measure(runs, "mix", 8, 100);
    measure(runs, "mix", 16, 100);
    for kind in ["rms", "sum", "change", "jump", "frequency", "harmonic", "sequence", "unbalance"] {
        measure(runs, kind, 8, 100);
    }
}

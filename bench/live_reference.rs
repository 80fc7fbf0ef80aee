//! The measures of `benchmarks live` over the reference: put it beside the reference's own `bench` (src/bin/live_reference.rs), and run
//! `cargo build --release && target/release/live_reference RUNS`.

// a refused call hands its owned arguments back
#![allow(clippy::result_large_err)]

use std::hint::black_box;
use std::time::Instant;

use dfr_ref::channels::{Layout, Rules, Scan};
use dfr_ref::comtrade::Kind;
use dfr_ref::live::{Fed, Feed, Order, Orders, Sink, open, run_live};
use dfr_ref::recorder::{Extent, Limits, Recorder};
use dfr_ref::{channels, spsc};

const PLACES: usize = 1_024;
const SCANS: u64 = 200_000;

fn layout() -> Layout {
    let whole = |n| dfr_ref::spell::Decimal::new(n, 0).expect("a small number");
    let text = |text: &str| text.as_bytes().to_vec();
    let analog = channels::AnalogChannel {
        id: text("I"),
        phase: text("A"),
        component: text("line 1"),
        unit: text("A"),
        a: dfr_ref::spell::Decimal::new(15, 4).expect("a small number"),
        b: whole(0),
        skew: whole(0),
        min: -32_767,
        max: 32_767,
        primary: whole(400),
        secondary: whole(1),
        side: channels::Side::Primary,
    };
    let status = channels::StatusChannel {
        id: text("S"),
        phase: text(""),
        component: text("line 1"),
        normal: false,
    };
    let setup = channels::Setup {
        station: text("Bay 1"),
        device: text("DFR"),
        analog: vec![analog; 32],
        status: vec![status; 64],
        line_freq: whole(50),
        rate: 4_800,
        start: 951_782_400_000_000,
    };
    Layout::new(setup).expect("a valid set-up")
}

fn recorder() -> Recorder {
    let layout = layout();
    let limits = Limits::new(&layout, 1_000, 1_000, 1_000_000, 64).expect("valid limits");
    let rules = Rules::new(&layout, Vec::new()).expect("no rules");
    Recorder::new(layout, limits, rules)
}

/// The same 64 scans as `benchmarks live` has.
fn set() -> Vec<Scan> {
    let mut state = 1_u64;
    let mut next = move |range: u64| {
        state = state.wrapping_mul(6_364_136_223_846_793_005).wrapping_add(1_442_695_040_888_963_407);
        (state >> 33) % range
    };
    let mut scan = || {
        let analog = (0..32).map(|_| channels::Reading::Value(next(32_768) as i32)).collect();
        Scan::new(analog, (0..64).map(|_| next(2) == 1).collect())
    };
    (0..64).map(|_| scan()).collect()
}

fn tell(name: &str, scans: u64, mut times: Vec<u64>) {
    times.sort_unstable();
    println!("{name}: {} ns, median {} ns a scan", times[0] / scans, times[times.len() / 2] / scans);
}

fn timed<T>(times: &mut Vec<u64>, work: impl FnOnce() -> T) -> T {
    let start = Instant::now();
    let result = black_box(work());
    times.push(start.elapsed().as_nanos() as u64);
    result
}

fn batch(set: &[Scan]) -> Vec<Scan> {
    set.iter().cycle().take(PLACES).cloned().collect()
}

fn lanes(set: &[Scan], runs: usize) {
    let (mut pushes, mut offers, mut pumps) = (Vec::new(), Vec::new(), Vec::new());
    let (mut producer, mut consumer) = spsc::lane(PLACES);
    let Ok(opened) = open(recorder(), PLACES, 1) else { panic!("valid lane and seats") };
    let (shared, mut source, mut tokens) = opened.share();
    for _ in 0..runs {
        let scans = batch(set);
        timed(&mut pushes, || scans.into_iter().filter_map(|s| producer.push(s).ok()).count());
        while let Some(scan) = consumer.pop() {
            drop(scan);
        }
        let scans = batch(set);
        let taken =
            timed(&mut offers, || scans.into_iter().filter_map(|s| source.offer(s).ok()).count());
        let pumped = timed(&mut pumps, || shared.pump(&mut tokens[0], PLACES as u32));
        assert_eq!(taken, pumped.scans as usize);
    }
    tell("push of a plain ring, one thread", PLACES as u64, pushes);
    tell("offer, one thread", PLACES as u64, offers);
    tell("pump of 1,024, one thread", PLACES as u64, pumps);
}

struct Copies<'a> {
    set: &'a [Scan],
    at: usize,
    left: u64,
}

impl Feed for Copies<'_> {
    fn next(&mut self) -> Result<Fed, u32> {
        if self.left == 0 {
            return Ok(Fed::Done);
        }
        self.left -= 1;
        self.at = (self.at + 1) % self.set.len();
        Ok(Fed::Scan(self.set[self.at].clone()))
    }
}

struct Each {
    place: u64,
    step: u64,
    end: u64,
}

impl Orders for Each {
    fn next(&mut self) -> Option<(u64, Order)> {
        self.place = self.place.saturating_add(self.step);
        (self.place <= self.end).then_some((self.place, Order::Trigger))
    }
}

struct Bytes(u64);

impl Sink for Bytes {
    fn put(&mut self, _extent: Extent, cfg: &[u8], dat: &[u8]) -> Result<(), u32> {
        self.0 += (cfg.len() + dat.len()) as u64;
        Ok(())
    }
}

fn runs_of(set: &[Scan], runs: usize, name: &str, places: usize, kind: Kind, step: u64, scans: u64) {
    let mut times = Vec::new();
    for _ in 0..runs {
        let recorder = recorder();
        let mut feed = Copies { set, at: 0, left: scans };
        let mut orders = Each { place: 0, step, end: scans };
        let mut sink = Bytes(0);
        let ran = timed(&mut times, || {
            run_live(recorder, places, kind, 1_000_000_000, &mut feed, &mut orders, &mut sink)
        });
        assert!(ran.is_ok());
    }
    tell(name, scans, times);
}

fn main() {
    let runs = std::env::args().nth(1).and_then(|word| word.parse().ok()).unwrap_or(5);
    let set = set();
    lanes(&set, runs);
    runs_of(&set, runs, "run_live, no record", PLACES, Kind::Ascii, u64::MAX, SCANS);
    runs_of(&set, runs, "run_live, ASCII records", PLACES, Kind::Ascii, 10_000, SCANS);
    runs_of(&set, runs, "run_live, BINARY records", PLACES, Kind::Binary, 10_000, SCANS);
    runs_of(&set, runs, "the same, a lane of 8", 8, Kind::Binary, 10_000, SCANS);
    runs_of(&set, runs, "the same, a lane of 1", 1, Kind::Binary, 10_000, SCANS / 10);
}

//! A plain Rust program of the shape of `dfrd --raw`: one thread reads frames from a pipe and makes a scan of each, another takes
//! them from a bounded queue, looks at a level, and keeps the last ones in a ring. It prints how many came and how many the full
//! queue lost.
//!
//!     rustc -O bench/dfrd_yardstick.rs -o /tmp/yardstick
//!     bench/dfrd raw 8 16 1000000 10 /tmp/yardstick raw 8 16
//!     bench/dfrd text 8 16 300000 10 /tmp/yardstick text 8 16

use std::collections::VecDeque;
use std::io::Read;
use std::sync::mpsc::{sync_channel, TrySendError};
use std::thread;

struct Scan {
    analog: Vec<Option<i32>>,
    status: Vec<bool>,
}

fn of_frame(frame: &[u8], analog: usize, status: usize) -> Scan {
    let values = frame[..2 * analog].chunks_exact(2).map(|b| {
        let v = i16::from_le_bytes([b[0], b[1]]);
        if v == i16::MIN { None } else { Some(v as i32) }
    });
    let words = &frame[2 * analog..];
    let bits = (0..status).map(|i| (words[i / 16 * 2 + i % 16 / 8] >> (i % 8)) & 1 == 1);
    Scan { analog: values.collect(), status: bits.collect() }
}

fn of_line(line: &str) -> Option<Scan> {
    let (readings, bits) = line.strip_prefix("scan ")?.split_once('/')?;
    let analog = readings.split(',').map(|f| if f == "*" { Some(None) } else { f.trim().parse().ok().map(Some) });
    let status = bits.split(',').map(|f| match f.trim() { "0" => Some(false), "1" => Some(true), _ => None });
    Some(Scan { analog: analog.collect::<Option<_>>()?, status: status.collect::<Option<_>>()? })
}

fn main() {
    let words: Vec<String> = std::env::args().collect();
    let (analog, status): (usize, usize) = (words[2].parse().unwrap(), words[3].parse().unwrap());
    let is_raw = words[1] == "raw";
    let (sender, receiver) = sync_channel::<Scan>(65_536);
    let trigger = thread::spawn(move || {
        let (mut ring, mut hits, mut sum) = (VecDeque::with_capacity(201), 0u64, 0u64);
        for scan in receiver {
            if matches!(scan.analog[0], Some(v) if v > 20_000) {
                hits += 1;
            }
            sum += scan.status.len() as u64;
            if ring.len() == 201 {
                ring.pop_front();
            }
            ring.push_back(scan);
        }
        (hits, sum)
    });
    let size = 2 * analog + 2 * ((status + 15) / 16);
    let (mut input, mut buffer, mut held) = (std::io::stdin().lock(), vec![0u8; 65_536], 0);
    let (mut came, mut lost) = (0u64, 0u64);
    let mut give = |scan: Option<Scan>| {
        came += 1;
        match scan.map(|s| sender.try_send(s)) {
            Some(Ok(())) => {}
            Some(Err(TrySendError::Full(_))) | Some(Err(TrySendError::Disconnected(_))) | None => lost += 1,
        }
    };
    loop {
        let n = input.read(&mut buffer[held..]).unwrap();
        if n == 0 {
            break;
        }
        held += n;
        let done = if is_raw {
            for frame in buffer[..held].chunks_exact(size) {
                give(Some(of_frame(frame, analog, status)));
            }
            held / size * size
        } else {
            let end = buffer[..held].iter().rposition(|b| *b == b'\n').map_or(0, |i| i + 1);
            for line in std::str::from_utf8(&buffer[..end]).unwrap().lines() {
                give(of_line(line));
            }
            end
        };
        buffer.copy_within(done..held, 0);
        held -= done;
    }
    drop(sender);
    let (hits, _) = trigger.join().unwrap();
    println!("end scans {came} lost {lost} hits {hits}");
}

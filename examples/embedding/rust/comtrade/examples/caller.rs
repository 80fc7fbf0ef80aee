//! Prints the contents of a pair and writes the pair again from the arrays that it read: caller CFG DAT NEWCFG NEWDAT
use comtrade::{Analog, NO_SAMPLE, Record, Setup, Status, Text};
use std::error::Error;

fn text(record: &Record, which: Text, channel: usize) -> Result<String, Box<dyn Error>> {
    Ok(String::from_utf8(record.text(which, channel)?)?)
}

fn main() -> Result<(), Box<dyn Error>> {
    let words: Vec<String> = std::env::args().collect();
    let record = Record::read(&std::fs::read(&words[1])?, &std::fs::read(&words[2])?)?;
    let head = record.head;
    let mut setup = Setup {
        station: text(&record, Text::Station, 0)?, device: text(&record, Text::Device, 0)?, analog: Vec::new(), status: Vec::new(), rates: Vec::new(),
        stamps: record.stamps()?, line_freq: head.line_freq, timemult: head.timemult, first: head.first, trigger: head.trigger, binary: head.binary,
    };
    let kind = if head.binary { "BINARY" } else { "ASCII" };
    println!("{}, {}: {} analogue, {} status, {} rows, {kind}", setup.station, setup.device, head.analog, head.status, head.rows);
    println!("{:.3} Hz, times {:.3}, from {}, trigger {}", head.line_freq, head.timemult, head.first, head.trigger);
    for k in 0..head.rates {
        let rate = record.rate(k)?;
        println!("rate {:.3} to row {}", rate.samp, rate.endsamp);
        setup.rates.push(rate);
    }
    setup.rates.truncate(head.nrates as usize);
    for c in 0..head.analog {
        let (s, samples, values) = (record.analog(c)?, record.samples(c)?, record.values(c)?);
        let made = Analog {
            id: text(&record, Text::AnalogId, c)?, phase: text(&record, Text::AnalogPhase, c)?, component: text(&record, Text::AnalogComponent, c)?,
            unit: text(&record, Text::AnalogUnit, c)?, scale: s, samples,
        };
        let held: Vec<i64> = made.samples.iter().filter(|x| **x != NO_SAMPLE).map(|x| i64::from(*x)).collect();
        let most = values.iter().copied().fold(0.0, f64::max);
        println!("{}|{}|{}|{}: {:.6} {:.6} {:.6} {:.3}:{:.3}{} {} to {}: {} missing, sum {}, most {most:.6}", made.id, made.phase, made.component, made.unit,
            s.a, s.b, s.skew, s.primary, s.secondary, if s.on_secondary { "S" } else { "P" }, s.min, s.max, made.samples.len() - held.len(), held.iter().sum::<i64>());
        setup.analog.push(made);
    }
    for c in 0..head.status {
        let (normal, bits) = (record.status(c)?.normal, record.bits(c)?);
        let made = Status { id: text(&record, Text::StatusId, c)?, phase: text(&record, Text::StatusPhase, c)?, component: text(&record, Text::StatusComponent, c)?, normal, bits };
        let ones: usize = made.bits.iter().map(|b| usize::from(*b)).sum();
        println!("{}|{}|{}: {}: {ones} of {}", made.id, made.phase, made.component, u8::from(normal), head.rows);
        setup.status.push(made);
    }
    let (times, values) = (record.times()?, (0..head.analog).map(|c| record.values(c)).collect::<Result<Vec<_>, _>>()?);
    for row in [0, head.rows / 2, head.rows - 1] {
        print!("row {row}: {} ns:", times[row]);
        for column in &values {
            if column[row].is_nan() { print!(" -") } else { print!(" {:.6}", column[row]) }
        }
        print!(" /");
        setup.status.iter().for_each(|c| print!(" {}", c.bits[row]));
        println!();
    }
    let (cfg, dat) = setup.write()?;
    std::fs::write(&words[3], cfg)?;
    std::fs::write(&words[4], dat)?;
    Ok(())
}

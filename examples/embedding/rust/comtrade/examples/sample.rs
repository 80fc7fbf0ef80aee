//! Prints the first analogue channel of a record: sample CFG DAT
use comtrade::{Record, Text};

fn main() -> Result<(), Box<dyn std::error::Error>> {
    let names: Vec<String> = std::env::args().skip(1).collect();
    let [cfg, dat] = &names[..] else { return Err("usage: sample CFG DAT".into()) };
    let record = Record::read(&std::fs::read(cfg)?, &std::fs::read(dat)?)?;
    let id = String::from_utf8(record.text(Text::AnalogId, 0)?)?;
    let unit = String::from_utf8(record.text(Text::AnalogUnit, 0)?)?;
    for (time, value) in record.times()?.iter().zip(record.values(0)?) {
        println!("{:.6} s: {id} {value:.3} {unit}", *time as f64 / 1e9);
    }
    Ok(())
}

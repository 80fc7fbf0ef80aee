//! Reads COMTRADE 1999 records (IEEE Std C37.111-1999) and writes them from arrays.
use comtrade_sys as sys;
use std::ffi::{CString, NulError};
use std::fmt;

pub use sys::{NO_SAMPLE, NO_STAMP, NO_TIME};

/// Why a record could not be read or written.
#[derive(Clone, Copy, Debug)]
pub enum Error {
    /// The first fault of the configuration file.
    Cfg(sys::comtrade_fault),
    /// The first fault of the data file.
    Dat(sys::comtrade_fault),
    /// No COMTRADE file can hold the record, for this reason.
    Write(sys::comtrade_fault),
    /// An allocation failed.
    Memory,
    /// Another answer of the library, by its number in comtrade.h: no such channel, rate or row, or columns of different lengths (6), or a
    /// text with a zero in it (9); nothing that can be measured (11).
    Other(i32),
}

impl fmt::Display for Error {
    fn fmt(&self, f: &mut fmt::Formatter<'_>) -> fmt::Result {
        let (part, fault) = match self {
            Error::Cfg(fault) => ("the configuration file: ", fault),
            Error::Dat(fault) => ("the data file: ", fault),
            Error::Write(fault) => ("", fault),
            Error::Memory => return f.write_str("out of memory"),
            Error::Other(answer) => return write!(f, "answer {answer}"),
        };
        let mut text = [0u8; 200];
        let mut length = 0;
        unsafe { sys::comtrade_fault_text(fault, text.as_mut_ptr().cast(), text.len(), &mut length) };
        write!(f, "{part}{}", String::from_utf8_lossy(&text[..length.min(text.len())]))
    }
}

impl std::error::Error for Error {}

fn need(answer: i32, fault: sys::comtrade_fault) -> Result<(), Error> {
    match answer {
        sys::DONE => Ok(()),
        sys::CFG_FAULT => Err(Error::Cfg(fault)),
        sys::DAT_FAULT => Err(Error::Dat(fault)),
        sys::WRITE_FAULT => Err(Error::Write(fault)),
        sys::NO_MEMORY => Err(Error::Memory),
        other => Err(Error::Other(other)),
    }
}

fn done(answer: i32) -> Result<(), Error> {
    need(answer, sys::comtrade_fault::default())
}

/// The first fault of a pair in words: where it is, what was found and what was expected. Empty if the pair has none.
pub fn explain(cfg: &[u8], dat: &[u8]) -> Result<String, Error> {
    let call = |text: *mut u8, room: usize, length: &mut usize| unsafe {
        sys::comtrade_explain(cfg.as_ptr(), cfg.len(), dat.as_ptr(), dat.len(), text.cast(), room, length)
    };
    let mut length = 0;
    call(std::ptr::null_mut(), 0, &mut length);
    let mut text = vec![0u8; length + 1];
    done(call(text.as_mut_ptr(), text.len(), &mut length))?;
    Ok(String::from_utf8_lossy(&text[..length]).into_owned())
}

/// The texts of a record. For `Station` and `Device` the channel is 0.
#[derive(Clone, Copy, Debug)]
#[repr(i32)]
pub enum Text {
    Station = 0,
    Device,
    AnalogId,
    AnalogPhase,
    AnalogComponent,
    AnalogUnit,
    StatusId,
    StatusPhase,
    StatusComponent,
}

/// A record that has been read. It never changes, so several threads may use it at once.
pub struct Record {
    at: *mut sys::comtrade,
    pub head: sys::comtrade_head,
}

unsafe impl Send for Record {}
unsafe impl Sync for Record {}

impl Drop for Record {
    fn drop(&mut self) {
        unsafe { sys::comtrade_close(self.at) }
    }
}

impl Record {
    /// Reads a record from the bytes of both files.
    pub fn read(cfg: &[u8], dat: &[u8]) -> Result<Record, Error> {
        let (mut at, mut fault) = (std::ptr::null_mut(), sys::comtrade_fault::default());
        need(unsafe { sys::comtrade_open(cfg.as_ptr(), cfg.len(), dat.as_ptr(), dat.len(), &mut at, &mut fault) }, fault)?;
        let mut record = Record { at, head: sys::comtrade_head { size: size_of::<sys::comtrade_head>(), ..Default::default() } };
        done(unsafe { sys::comtrade_head(at, &mut record.head) })?;
        Ok(record)
    }

    /// A text as the bytes of the file.
    pub fn text(&self, which: Text, channel: usize) -> Result<Vec<u8>, Error> {
        let mut length = 0;
        unsafe { sys::comtrade_text(self.at, which as i32, channel, std::ptr::null_mut(), 0, &mut length) };
        let mut text = vec![0u8; length + 1];
        done(unsafe { sys::comtrade_text(self.at, which as i32, channel, text.as_mut_ptr().cast(), text.len(), &mut length) })?;
        text.truncate(length);
        Ok(text)
    }

    /// The scale, transformer ratio and limits of an analogue channel.
    pub fn analog(&self, channel: usize) -> Result<sys::comtrade_analog, Error> {
        let mut said = sys::comtrade_analog { size: size_of::<sys::comtrade_analog>(), ..Default::default() };
        done(unsafe { sys::comtrade_analog(self.at, channel, &mut said) })?;
        Ok(said)
    }

    /// A status channel: its bit in normal operation.
    pub fn status(&self, channel: usize) -> Result<sys::comtrade_status, Error> {
        let mut said = sys::comtrade_status { size: size_of::<sys::comtrade_status>(), ..Default::default() };
        done(unsafe { sys::comtrade_status(self.at, channel, &mut said) })?;
        Ok(said)
    }

    /// A sampling rate, and the number (from 1) of the last row sampled at it.
    pub fn rate(&self, rate: usize) -> Result<sys::comtrade_rate, Error> {
        let mut said = sys::comtrade_rate { size: size_of::<sys::comtrade_rate>(), ..Default::default() };
        done(unsafe { sys::comtrade_rate(self.at, rate, &mut said) })?;
        Ok(said)
    }

    /// The samples of one channel, one for each row; `NO_SAMPLE` if one is missing.
    pub fn samples(&self, channel: usize) -> Result<Vec<i32>, Error> {
        self.column(channel, 0, |at, c, n, to| unsafe { sys::comtrade_samples(at, c, 0, n, to) })
    }

    /// The values of one channel, one for each row; a NaN if the sample is missing.
    pub fn values(&self, channel: usize) -> Result<Vec<f64>, Error> {
        self.column(channel, 0.0, |at, c, n, to| unsafe { sys::comtrade_values(at, c, 0, n, to) })
    }

    /// The bits of one status channel, one for each row.
    pub fn bits(&self, channel: usize) -> Result<Vec<u8>, Error> {
        self.column(channel, 0, |at, c, n, to| unsafe { sys::comtrade_bits(at, c, 0, n, to) })
    }

    /// The time stamp of each row; `NO_STAMP` if it has none.
    pub fn stamps(&self) -> Result<Vec<u64>, Error> {
        self.column(0, 0, |at, _, n, to| unsafe { sys::comtrade_stamps(at, 0, n, to) })
    }

    /// The time of each row in nanoseconds since the first row; `NO_TIME` if neither a rate nor a time stamp gives it.
    pub fn times(&self) -> Result<Vec<i64>, Error> {
        self.column(0, 0, |at, _, n, to| unsafe { sys::comtrade_times(at, 0, n, to) })
    }

    /// The rms value of an analogue channel over `count` rows from row `first` on.
    pub fn rms(&self, channel: usize, first: usize, count: usize) -> Result<f64, Error> {
        let mut rms = 0.0;
        done(unsafe { sys::comtrade_rms(self.at, channel, first, count, &mut rms) })?;
        Ok(rms)
    }

    /// What is measured of an analogue channel over the last `cycles` whole cycles that end with a row.
    pub fn measure(&self, channel: usize, row: usize, cycles: u32) -> Result<sys::comtrade_measure, Error> {
        let mut said = sys::comtrade_measure { size: size_of::<sys::comtrade_measure>(), ..Default::default() };
        done(unsafe { sys::comtrade_measure(self.at, channel, row, cycles, &mut said) })?;
        Ok(said)
    }

    fn column<T: Copy>(&self, channel: usize, zero: T, call: impl Fn(*const sys::comtrade, usize, usize, *mut T) -> i32) -> Result<Vec<T>, Error> {
        let mut found = vec![zero; self.head.rows];
        if channel == sys::ALL {
            return Err(Error::Other(6));
        }
        done(call(self.at, channel, found.len(), found.as_mut_ptr()))?;
        Ok(found)
    }
}

/// An analogue channel to be written, with one sample for each row.
pub struct Analog {
    pub id: String,
    pub phase: String,
    pub component: String,
    pub unit: String,
    pub scale: sys::comtrade_analog,
    pub samples: Vec<i32>,
}

/// A status channel to be written, with one bit for each row.
pub struct Status {
    pub id: String,
    pub phase: String,
    pub component: String,
    pub normal: bool,
    pub bits: Vec<u8>,
}

/// A record to be written. Instants are microseconds since 1970. There is one time stamp for each row; with no rates the time stamps give
/// the times.
pub struct Setup {
    pub station: String,
    pub device: String,
    pub analog: Vec<Analog>,
    pub status: Vec<Status>,
    pub rates: Vec<sys::comtrade_rate>,
    pub stamps: Vec<u64>,
    pub line_freq: f64,
    pub timemult: f64,
    pub first: i64,
    pub trigger: i64,
    pub binary: bool,
}

/// The columns as one table, row by row.
fn table<T: Copy>(columns: &[&[T]], rows: usize) -> Result<Vec<T>, Error> {
    if columns.iter().any(|column| column.len() != rows) {
        return Err(Error::Other(6));
    }
    Ok((0..rows).flat_map(|row| columns.iter().map(move |column| column[row])).collect())
}

impl From<NulError> for Error {
    fn from(_zero: NulError) -> Error {
        Error::Other(9)
    }
}

impl Setup {
    /// Writes the record: the bytes of the configuration file and of the data file.
    pub fn write(&self) -> Result<(Vec<u8>, Vec<u8>), Error> {
        let rows = self.stamps.len();
        let samples = table(&self.analog.iter().map(|c| &c.samples[..]).collect::<Vec<_>>(), rows)?;
        let bits = table(&self.status.iter().map(|c| &c.bits[..]).collect::<Vec<_>>(), rows)?;
        let mut texts = Vec::new(); // keeps the texts alive while the pointers are used
        let mut text = |from: &str| -> Result<_, NulError> {
            texts.push(CString::new(from)?);
            Ok(texts[texts.len() - 1].as_ptr())
        };
        let mut analog = Vec::new();
        for c in &self.analog {
            let s = &c.scale;
            analog.push(sys::comtrade_analog_setup {
                id: text(&c.id)?, phase: text(&c.phase)?, component: text(&c.component)?, unit: text(&c.unit)?,
                a: s.a, b: s.b, skew: s.skew, primary: s.primary, secondary: s.secondary, min: s.min, max: s.max, on_secondary: s.on_secondary,
            });
        }
        let mut status = Vec::new();
        for c in &self.status {
            status.push(sys::comtrade_status_setup { id: text(&c.id)?, phase: text(&c.phase)?, component: text(&c.component)?, normal: c.normal });
        }
        let setup = sys::comtrade_setup {
            size: size_of::<sys::comtrade_setup>(), station: text(&self.station)?, device: text(&self.device)?,
            analog: analog.as_ptr(), analog_count: analog.len(), status: status.as_ptr(), status_count: status.len(),
            rates: self.rates.as_ptr(), rate_count: self.rates.len(), rows, stamps: self.stamps.as_ptr(), samples: samples.as_ptr(), bits: bits.as_ptr(),
            line_freq: self.line_freq, timemult: self.timemult, first: self.first, trigger: self.trigger, binary: self.binary,
        };
        let (mut cfg, mut dat, mut fault) = (std::ptr::null_mut(), std::ptr::null_mut(), sys::comtrade_fault::default());
        let (mut cfg_length, mut dat_length) = (0, 0);
        need(unsafe { sys::comtrade_write(&setup, &mut cfg, &mut cfg_length, &mut dat, &mut dat_length, &mut fault) }, fault)?;
        let copied = unsafe { (std::slice::from_raw_parts(cfg, cfg_length).to_vec(), std::slice::from_raw_parts(dat, dat_length).to_vec()) };
        unsafe {
            sys::comtrade_free(cfg.cast());
            sys::comtrade_free(dat.cast());
        }
        Ok(copied)
    }
}

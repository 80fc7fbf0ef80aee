//! The structs and calls of comtrade.h, which describes each of them.
#![no_std]
#![allow(non_camel_case_types)]

use core::ffi::{c_char, c_void};

pub const DONE: i32 = 0;
pub const CFG_FAULT: i32 = 1;
pub const DAT_FAULT: i32 = 2;
pub const WRITE_FAULT: i32 = 3;
pub const NO_MEMORY: i32 = 4;
pub const ALL: usize = usize::MAX;
pub const NO_SAMPLE: i32 = i32::MIN;
pub const NO_STAMP: u64 = u64::MAX;
pub const NO_TIME: i64 = i64::MIN;

/// A record, used only through a pointer.
#[repr(C)]
pub struct comtrade {
    _private: [u8; 0],
}

#[repr(C)]
#[derive(Clone, Copy, Debug, Default)]
pub struct comtrade_fault {
    pub place: u64,
    pub field: u32,
    pub kind: u32,
}

#[repr(C)]
#[derive(Clone, Copy, Debug, Default)]
pub struct comtrade_head {
    pub size: usize,
    pub analog: usize,
    pub status: usize,
    pub rates: usize,
    pub rows: usize,
    pub first: i64,
    pub trigger: i64,
    pub line_freq: f64,
    pub timemult: f64,
    pub nrates: u32,
    pub binary: bool,
}

#[repr(C)]
#[derive(Clone, Copy, Debug, Default)]
pub struct comtrade_analog {
    pub size: usize,
    pub a: f64,
    pub b: f64,
    pub skew: f64,
    pub primary: f64,
    pub secondary: f64,
    pub min: i32,
    pub max: i32,
    pub on_secondary: bool,
}

#[repr(C)]
#[derive(Clone, Copy, Debug, Default)]
pub struct comtrade_status {
    pub size: usize,
    pub normal: bool,
}

#[repr(C)]
#[derive(Clone, Copy, Debug, Default)]
pub struct comtrade_rate {
    pub size: usize,
    pub samp: f64,
    pub endsamp: u64,
}

pub const ORDERS: usize = 25;

#[repr(C)]
#[derive(Clone, Copy, Debug, Default)]
pub struct comtrade_measure {
    pub size: usize,
    pub first: usize,
    pub rows: usize,
    pub rms: f64,
    pub re: f64,
    pub im: f64,
    pub dc: f64,
    pub fall: f64,
    pub peak: f64,
    pub residual: f64,
    pub peak_row: usize,
    pub orders: usize,
    pub order: [f64; ORDERS],
    pub has_angle: bool,
}

#[repr(C)]
#[derive(Clone, Copy)]
pub struct comtrade_analog_setup {
    pub id: *const c_char,
    pub phase: *const c_char,
    pub component: *const c_char,
    pub unit: *const c_char,
    pub a: f64,
    pub b: f64,
    pub skew: f64,
    pub primary: f64,
    pub secondary: f64,
    pub min: i32,
    pub max: i32,
    pub on_secondary: bool,
}

#[repr(C)]
#[derive(Clone, Copy)]
pub struct comtrade_status_setup {
    pub id: *const c_char,
    pub phase: *const c_char,
    pub component: *const c_char,
    pub normal: bool,
}

#[repr(C)]
#[derive(Clone, Copy)]
pub struct comtrade_setup {
    pub size: usize,
    pub station: *const c_char,
    pub device: *const c_char,
    pub analog: *const comtrade_analog_setup,
    pub analog_count: usize,
    pub status: *const comtrade_status_setup,
    pub status_count: usize,
    pub rates: *const comtrade_rate,
    pub rate_count: usize,
    pub rows: usize,
    pub stamps: *const u64,
    pub samples: *const i32,
    pub bits: *const u8,
    pub line_freq: f64,
    pub timemult: f64,
    pub first: i64,
    pub trigger: i64,
    pub binary: bool,
}

unsafe extern "C" {
    pub fn comtrade_version() -> i32;
    pub fn comtrade_open(cfg: *const u8, cfg_length: usize, dat: *const u8, dat_length: usize, record: *mut *mut comtrade, fault: *mut comtrade_fault) -> i32;
    pub fn comtrade_close(record: *mut comtrade);
    pub fn comtrade_head(record: *const comtrade, head: *mut comtrade_head) -> i32;
    pub fn comtrade_text(record: *const comtrade, which: i32, channel: usize, buffer: *mut c_char, room: usize, needed: *mut usize) -> i32;
    pub fn comtrade_analog(record: *const comtrade, channel: usize, analog: *mut comtrade_analog) -> i32;
    pub fn comtrade_status(record: *const comtrade, channel: usize, status: *mut comtrade_status) -> i32;
    pub fn comtrade_rate(record: *const comtrade, rate: usize, said: *mut comtrade_rate) -> i32;
    pub fn comtrade_samples(record: *const comtrade, channel: usize, first: usize, count: usize, to: *mut i32) -> i32;
    pub fn comtrade_values(record: *const comtrade, channel: usize, first: usize, count: usize, to: *mut f64) -> i32;
    pub fn comtrade_bits(record: *const comtrade, channel: usize, first: usize, count: usize, to: *mut u8) -> i32;
    pub fn comtrade_stamps(record: *const comtrade, first: usize, count: usize, to: *mut u64) -> i32;
    pub fn comtrade_times(record: *const comtrade, first: usize, count: usize, to: *mut i64) -> i32;
    pub fn comtrade_rms(record: *const comtrade, channel: usize, first: usize, count: usize, rms: *mut f64) -> i32;
    pub fn comtrade_measure(record: *const comtrade, channel: usize, row: usize, cycles: u32, measure: *mut comtrade_measure) -> i32;
    pub fn comtrade_explain(cfg: *const u8, cfg_length: usize, dat: *const u8, dat_length: usize, buffer: *mut c_char, room: usize, needed: *mut usize) -> i32;
    pub fn comtrade_fault_text(fault: *const comtrade_fault, buffer: *mut c_char, room: usize, needed: *mut usize) -> i32;
    pub fn comtrade_write(setup: *const comtrade_setup, cfg: *mut *mut u8, cfg_length: *mut usize, dat: *mut *mut u8, dat_length: *mut usize, fault: *mut comtrade_fault) -> i32;
    pub fn comtrade_free(at: *mut c_void);
}

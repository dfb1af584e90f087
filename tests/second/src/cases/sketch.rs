//! A drawing file, step by step.

use crate::drawing::{CLOSE, LINE, MOVE, VERSION};
use crate::millimetres::bits_of;

#[derive(Clone)]
pub struct Sketch {
    window: [u32; 4],
    records: Vec<u8>,
}

impl Sketch {
    /// The window as four f32 by their bits.
    pub fn on(window: [u32; 4]) -> Sketch {
        let records = Vec::new();
        Sketch { window, records }
    }

    pub fn on_grid(window: [i32; 4]) -> Sketch {
        Sketch::on(window.map(bits_of))
    }

    pub fn step(mut self, letter: u8, to: [u32; 2]) -> Sketch {
        self.records.push(letter);
        self.records.extend(to.map(u32::to_be_bytes).concat());
        self
    }

    pub fn go(self, x: i32, y: i32) -> Sketch {
        self.step(MOVE, [x, y].map(bits_of))
    }

    pub fn line(self, x: i32, y: i32) -> Sketch {
        self.step(LINE, [x, y].map(bits_of))
    }

    pub fn close(self) -> Sketch {
        self.bytes(&[CLOSE])
    }

    /// Bytes as they are, records or not.
    pub fn bytes(mut self, bytes: &[u8]) -> Sketch {
        self.records.extend(bytes);
        self
    }

    pub fn file(&self) -> Vec<u8> {
        let window = self.window.map(u32::to_be_bytes).concat();
        let rest = [&[VERSION], &window[..], &self.records].concat();
        counted(&rest)
    }
}

/// The count of bytes that follow, then those bytes.
pub fn counted(rest: &[u8]) -> Vec<u8> {
    [&(rest.len() as u32).to_be_bytes(), rest].concat()
}

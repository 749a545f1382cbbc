//! Writes a raw PB stream to standard output: of a size in bytes, the same at each call.
//!
//! `make double BYTES` writes SCALAR_DOUBLE samples at 10 Hz from the start of 2024 on, `make int BYTES`
//! SCALAR_INT samples at 10 Hz, and `make waveform BYTES` WAVEFORM_DOUBLE samples of 1,000 elements, one in
//! 10 seconds. Values are a slow wave with noise in the low bits, so a byte needs an escape about as often
//! as in real data.

use std::io::{self, BufWriter, Write};

const INT: u8 = 5;

/// Noise: a linear congruential generator.
struct Noise(u64);

impl Noise {
    fn next(&mut self) -> f64 {
        self.0 = self.0.wrapping_mul(6364136223846793005).wrapping_add(1442695040888963407);
        (self.0 >> 11) as f64 / (1u64 << 53) as f64
    }
}

fn put_varint(out: &mut Vec<u8>, mut number: u64) {
    while number >= 128 {
        out.push(number as u8 | 128);
        number >>= 7;
    }
    out.push(number as u8);
}

fn put_value(out: &mut Vec<u8>, payload_type: u8, elements: usize, sample: u64, noise: &mut Noise) {
    if payload_type == INT {
        out.push(0x1d);
        let value = 100_000.0 * (sample as f64 / 7000.0).sin() + 1000.0 * noise.next();
        out.extend_from_slice(&(value as i32).to_le_bytes());
        return;
    }
    if elements == 1 {
        out.push(0x19);
    } else {
        out.push(0x1a);
        put_varint(out, 8 * elements as u64);
    }
    for i in 0..elements {
        let phase = sample as f64 / 7000.0 + i as f64 / 50.0;
        out.extend_from_slice(&(20.0 + 5.0 * phase.sin() + 0.01 * noise.next()).to_le_bytes());
    }
}

/// Puts a message as a line, and answers how many bytes that are.
fn put_line(out: &mut impl Write, message: &[u8]) -> io::Result<usize> {
    let mut line = Vec::with_capacity(2 * message.len() + 1);
    for byte in message {
        match byte {
            0x1b => line.extend_from_slice(&[0x1b, 1]),
            0x0a => line.extend_from_slice(&[0x1b, 2]),
            0x0d => line.extend_from_slice(&[0x1b, 3]),
            other => line.push(*other),
        }
    }
    line.push(0x0a);
    out.write_all(&line)?;
    Ok(line.len())
}

fn main() -> io::Result<()> {
    let words: Vec<String> = std::env::args().skip(1).collect();
    let (payload_type, elements, tenths) = match words[0].as_str() {
        "double" => (6, 1, 1),
        "int" => (INT, 1, 1),
        "waveform" => (13, 1000, 100),
        other => panic!("double, int or waveform, and not {other}"),
    };
    let bytes: usize = words[1].parse().expect("a size in bytes");
    let mut out = BufWriter::with_capacity(1 << 16, io::stdout().lock());
    let header = [0x08, payload_type, 0x12, 4, b'B', b':', b'1', b'0', 0x18, 0xe8, 0x0f];
    let mut written = put_line(&mut out, &header)?;
    let mut noise = Noise(1);
    let mut message = Vec::new();
    for sample in 0.. {
        message.clear();
        message.push(0x08);
        put_varint(&mut message, sample * tenths / 10);
        message.push(0x10);
        put_varint(&mut message, sample * tenths % 10 * 100_000_000);
        put_value(&mut message, payload_type, elements, sample, &mut noise);
        if sample % 600 == 0 {
            message.extend_from_slice(&[0x20, 1, 0x28, 3]); // a minor alarm, now and then
        }
        written += put_line(&mut out, &message)?;
        if written >= bytes {
            break;
        }
    }
    out.flush()
}

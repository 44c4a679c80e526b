//! The bytes of both protocols: numbers low byte first. A cut stream reads as None.

use std::io::{self, BufRead, BufReader, BufWriter, Read, Stdin, Stdout, Write};

pub fn usage(form: &str) -> ! {
    eprintln!("usage: {form}");
    std::process::exit(2)
}

pub struct Wire {
    from: BufReader<Stdin>,
    to: BufWriter<Stdout>,
}

impl Wire {
    pub fn new() -> Wire {
        // an environment that asks the original for dumps would spoil answers and time
        for (name, _) in std::env::vars_os() {
            if name.to_string_lossy().starts_with("JSCD_") {
                std::env::remove_var(&name);
            }
        }
        Wire {
            from: BufReader::with_capacity(1 << 16, io::stdin()),
            to: BufWriter::with_capacity(1 << 16, io::stdout()),
        }
    }

    /// Answers go out before the program waits for more requests.
    pub fn ready(&mut self) -> Option<()> {
        if self.from.buffer().is_empty() {
            self.to.flush().ok()?;
        }
        (!self.from.fill_buf().ok()?.is_empty()).then_some(())
    }

    fn array<const N: usize>(&mut self) -> Option<[u8; N]> {
        let mut got = [0; N];
        self.from.read_exact(&mut got).ok()?;
        Some(got)
    }

    pub fn one(&mut self) -> Option<u8> {
        self.array().map(|[b]| b)
    }

    pub fn four(&mut self) -> Option<u32> {
        self.array().map(u32::from_le_bytes)
    }

    pub fn eight(&mut self) -> Option<u64> {
        self.array().map(u64::from_le_bytes)
    }

    /// A length and that many bytes, of which at most `most` are kept.
    pub fn text(&mut self, most: u64) -> Option<Vec<u8>> {
        let length = self.four()? as u64;
        let mut kept = Vec::new();
        (&mut self.from).take(length.min(most)).read_to_end(&mut kept).ok()?;
        let rest = length - kept.len() as u64;
        let gone = io::copy(&mut (&mut self.from).take(rest), &mut io::sink()).ok()?;
        (gone == rest).then_some(kept)
    }

    pub fn put(&mut self, bytes: &[u8]) -> Option<()> {
        self.to.write_all(bytes).ok()
    }

    pub fn put_text(&mut self, bytes: &[u8]) -> Option<()> {
        self.put(&(bytes.len() as u32).to_le_bytes())?;
        self.put(bytes)
    }
}

impl Drop for Wire {
    fn drop(&mut self) {
        let _ = self.to.flush();
    }
}

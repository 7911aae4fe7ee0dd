//! A line on the terminal that says how far a run has come.

use std::env;
use std::fs;
use std::io::{self, IsTerminal, Write};
use std::os::unix::fs::FileTypeExt;
use std::time::{Duration, Instant};

/// Time between two drawings of the line.
const PAUSE: Duration = Duration::from_millis(100);

/// How far a run has come.
pub struct Progress {
    count: Count,
    begun: Instant,
    /// When the line was last drawn; `None` where nothing is to be drawn.
    drawn: Option<Instant>,
    visible: bool,
}

/// What the line tells.
struct Count {
    done: &'static str,
    total: usize,
    so_far: usize,
    refused: usize,
    bytes: u64,
}

impl Progress {
    /// The beginning of a run over so many shards; `done` is what is done with
    /// them: 'checked'.
    pub fn new(done: &'static str, total: usize) -> Self {
        let begun = Instant::now();
        Progress {
            count: Count {
                done,
                total,
                so_far: 0,
                refused: 0,
                bytes: 0,
            },
            begun,
            drawn: (total > 1 && has_a_place()).then_some(begun),
            visible: false,
        }
    }

    /// One more shard is done, for which so many bytes were read.
    pub fn add(&mut self, bytes: u64, refused: bool) {
        self.count.so_far += 1;
        self.count.bytes += bytes;
        self.count.refused += usize::from(refused);
    }

    /// Takes the line away, so that answers can be printed.
    pub fn clear(&mut self) {
        if self.visible {
            write("\r\x1b[K");
            self.visible = false;
        }
    }

    /// Shows the line, unless it was shown a moment ago.
    pub fn draw(&mut self) {
        let now = Instant::now();
        let due = |drawn| now.duration_since(drawn) >= PAUSE;
        if self.drawn.is_some_and(due) {
            write(&format!("\r\x1b[K{}", self.count.line(now - self.begun)));
            self.drawn = Some(now);
            self.visible = true;
        }
    }
}

impl Drop for Progress {
    fn drop(&mut self) {
        self.clear();
    }
}

impl Count {
    /// `checked 37 of 200, 2 refused, 1.2 GB/s`
    fn line(&self, time: Duration) -> String {
        format!(
            "{} {} of {}, {} refused, {}",
            self.done,
            self.so_far,
            self.total,
            self.refused,
            rate(self.bytes, time)
        )
    }
}

/// Bytes in a time, as a rate.
fn rate(bytes: u64, time: Duration) -> String {
    let in_second = bytes as f64 / time.as_secs_f64().max(1e-9);
    if in_second >= 1e9 {
        format!("{:.1} GB/s", in_second / 1e9)
    } else {
        format!("{:.0} MB/s", in_second / 1e6)
    }
}

/// Whether the line can be drawn: on a terminal that can take it away again,
/// and not while another program, perhaps a pager, shows the answers there.
fn has_a_place() -> bool {
    let dumb = env::var_os("TERM").is_none_or(|kind| kind == "dumb");
    let answers = fs::metadata("/proc/self/fd/1");
    let piped = answers.is_ok_and(|about| about.file_type().is_fifo());
    io::stderr().is_terminal() && !dumb && !piped
}

/// Where standard error is closed, nobody sees the line.
fn write(text: &str) {
    let mut stderr = io::stderr().lock();
    let _ = stderr
        .write_all(text.as_bytes())
        .and_then(|()| stderr.flush());
}

#[cfg(test)]
mod tests {
    use super::*;

    #[test]
    fn the_line() {
        let count = Count {
            done: "checked",
            total: 200,
            so_far: 37,
            refused: 2,
            bytes: 2_400_000_000,
        };
        let line = count.line(Duration::from_secs(2));
        assert_eq!(line, "checked 37 of 200, 2 refused, 1.2 GB/s");
        assert_eq!(rate(2_400_000_000, Duration::from_secs(4)), "600 MB/s");
        assert_eq!(rate(0, Duration::ZERO), "0 MB/s");
    }
}

//! Work shared out among the machine's cores, and small things that every comparison uses.
use crate::Outcome;
use std::sync::atomic::{AtomicU64, AtomicUsize, Ordering};
use std::sync::Mutex;

/// Does pieces 0 to n - 1; what each does hangs on its number alone, so the result does not hang on the cores.
pub fn pieces(n: usize, work: impl Fn(usize) -> Outcome + Sync) -> Outcome {
    let next = AtomicUsize::new(0);
    let found = Mutex::new((0, None));
    let cores = std::thread::available_parallelism().map_or(1, |c| c.get());
    std::thread::scope(|scope| {
        for _ in 0..cores {
            scope.spawn(|| loop {
                let piece = next.fetch_add(1, Ordering::Relaxed);
                if piece >= n {
                    return;
                }
                let outcome = work(piece);
                if let Ok(mut found) = found.lock() {
                    match outcome {
                        Ok(cases) => found.0 += cases,
                        Err(case) => {
                            next.store(n, Ordering::Relaxed);
                            found.1 = found.1.take().or(Some(case));
                        }
                    }
                }
            });
        }
    });
    match found.into_inner() {
        Ok((cases, None)) => Ok(cases),
        Ok((_, Some(case))) => Err(case),
        Err(_) => Err("a thread failed".to_string()),
    }
}

pub fn hex(bytes: &[u8]) -> String {
    bytes.iter().map(|b| format!("{b:02X}")).collect()
}

/// An answer as its code and place.
pub fn shown(answer: u64) -> String {
    format!("{} at {}", answer % 256, answer / 256)
}

pub fn said(call: &str, archive: u64, baseline: u64) -> String {
    format!("{call}: the archive answers {}, document 01 {}", shown(archive), shown(baseline))
}

/// A table or a buffer, with the guard behind it, where the two sides leave it otherwise.
pub fn left_behind(before: String, archive: String, baseline: String) -> String {
    if archive == baseline {
        return String::new();
    }
    format!("\nbefore, with a guard: {before}\nthe archive leaves:   {archive}\ndocument 01 wants:    {baseline}")
}

/// How often each number was answered.
pub struct Answers([AtomicU64; 64]);

impl Answers {
    pub const fn new() -> Answers {
        const NONE: AtomicU64 = AtomicU64::new(0);
        Answers([NONE; 64])
    }

    pub fn count(&self, answer: u64) {
        self.0[answer as usize % 64].fetch_add(1, Ordering::Relaxed);
    }

    pub fn counted(&self) -> String {
        let times = self.0.iter().map(|times| times.load(Ordering::Relaxed));
        times.enumerate().filter(|&(_, times)| times > 0).map(|(code, times)| format!(" {code}:{times}")).collect()
    }
}

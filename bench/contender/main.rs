//! Two programs that print what `cart` prints: `contender fast` is written for speed with the same checks, `contender naive` sorts the whole
//! window for each question after each report. They share the reading of a log and the sessions.

mod fast;
mod log;
mod naive;

fn main() {
    match std::env::args().nth(1).as_deref() {
        Some("fast") => log::run(fast::Fast::new()),
        Some("naive") => log::run(naive::Naive::new()),
        _ => panic!("usage: contender fast|naive <LOG"),
    }
}

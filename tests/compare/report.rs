// What was compared so far, and the end of a run at its first difference.
use std::sync::atomic::{AtomicU64, Ordering};

static INPUTS: AtomicU64 = AtomicU64::new(0);

// One more input: a call, a search, a file or a reading.
pub fn input() {
    INPUTS.fetch_add(1, Ordering::Relaxed);
}

pub fn differ(what: &str, input: String, ours: String, wanted: String) -> ! {
    println!("DIFFERENCE in {what}, after {} inputs\n  input  {input}\n  ours   {ours}\n  wanted {wanted}", INPUTS.load(Ordering::Relaxed));
    std::process::exit(1)
}

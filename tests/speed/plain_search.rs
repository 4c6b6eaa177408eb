// The search for a run of literals, written plainly in Rust with nothing but its standard library, to be timed beside `bench`:
// a window that is moved by the shift of the byte beyond it.
//
//   plain_search FILE RUN [TIMES] [backward]   prints `hit` or `miss`, the least time of TIMES searches (5) and the speed
//   plain_search make random FILE              writes 16 MiB of random bytes, the same ones each time
//   plain_search make letters FILE             writes 16 MiB of bytes drawn from 41, 42 and 43, the same ones each time
//   plain_search last COUNT FILE               prints the last bytes of a file, as a run
use std::time::{Duration, Instant};

const SIZE: usize = 16 << 20;

// How far a window moves for each byte beyond it: to the byte's nearest place from the needle's end, or past it.
fn shifts(needle: &[u8]) -> [usize; 256] {
    let mut shifts = [needle.len() + 1; 256];
    for (i, b) in needle.iter().enumerate() {
        shifts[usize::from(*b)] = needle.len() - i;
    }
    shifts
}

fn hits(bytes: &[u8], needle: &[u8], shifts: &[usize; 256]) -> bool {
    let mut at = 0;
    while at + needle.len() <= bytes.len() {
        let window = &bytes[at..at + needle.len()];
        if window == needle {
            return true;
        }
        match bytes.get(at + needle.len()) {
            Some(beyond) => at += shifts[usize::from(*beyond)],
            None => return false,
        }
    }
    false
}

// The same from the last byte to the first: the window stands before `end`.
fn hits_backward(bytes: &[u8], needle: &[u8], shifts: &[usize; 256]) -> bool {
    let mut end = bytes.len();
    while needle.len() <= end {
        let window = &bytes[end - needle.len()..end];
        if window.iter().rev().eq(needle) {
            return true;
        }
        if end == needle.len() {
            return false;
        }
        let beyond = bytes[end - needle.len() - 1];
        end = end.saturating_sub(shifts[usize::from(beyond)]);
    }
    false
}

fn measure(bytes: &[u8], needle: &[u8], times: u32, backward: bool) {
    let shifts = shifts(needle);
    let mut best = Duration::MAX;
    let mut hit = false;
    for _ in 0..times {
        let start = Instant::now();
        let (bytes, needle) = (std::hint::black_box(bytes), std::hint::black_box(needle));
        hit = if backward { hits_backward(bytes, needle, &shifts) } else { hits(bytes, needle, &shifts) };
        hit = std::hint::black_box(hit);
        best = best.min(start.elapsed());
    }
    let answer = if hit { "hit" } else { "miss" };
    let speed = bytes.len() as u128 * 1000 / best.as_nanos().max(1);
    println!("{answer} {} us {speed} MB/s", best.as_micros());
}

fn made(letters: bool) -> Vec<u8> {
    let mut state = 1u64;
    let mut next = || {
        state = state.wrapping_mul(6364136223846793005).wrapping_add(1442695040888963407);
        (state >> 40) as u8
    };
    (0..SIZE).map(|_| if letters { 0x41 + next() % 3 } else { next() }).collect()
}

fn run_of(text: &str) -> Option<Vec<u8>> {
    if text.is_empty() || text.len() % 2 != 0 || !text.bytes().all(|c| matches!(c, b'0'..=b'9' | b'A'..=b'F')) {
        return None;
    }
    (0..text.len()).step_by(2).map(|i| u8::from_str_radix(&text[i..i + 2], 16).ok()).collect()
}

fn read(file: &str) -> Result<Vec<u8>, String> {
    std::fs::read(file).map_err(|e| format!("{file}: {e}"))
}

fn search(file: &str, text: &str, times: Option<&str>, backward: bool) -> Result<(), String> {
    let needle = run_of(text).ok_or("RUN is bytes in hexadecimal")?;
    let times = times.map_or(Ok(5), str::parse).ok().filter(|n| *n > 0).ok_or("TIMES is a number from 1 on")?;
    measure(&read(file)?, &needle, times, backward);
    Ok(())
}

fn run(words: &[&str]) -> Result<(), String> {
    match *words {
        ["make", what @ ("random" | "letters"), file] => {
            std::fs::write(file, made(what == "letters")).map_err(|e| format!("{file}: {e}"))
        }
        ["last", count, file] => {
            let bytes = read(file)?;
            let count: usize = count.parse().map_err(|_| "COUNT is a number")?;
            let last = &bytes[bytes.len().saturating_sub(count)..];
            println!("{}", last.iter().map(|b| format!("{b:02X}")).collect::<String>());
            Ok(())
        }
        [file, text] => search(file, text, None, false),
        [file, text, "backward"] => search(file, text, None, true),
        [file, text, times] => search(file, text, Some(times), false),
        [file, text, times, "backward"] => search(file, text, Some(times), true),
        _ => Err("FILE RUN [TIMES] [backward], make random|letters FILE, or last COUNT FILE".into()),
    }
}

fn main() {
    let words: Vec<String> = std::env::args().skip(1).collect();
    let words: Vec<&str> = words.iter().map(String::as_str).collect();
    if let Err(e) = run(&words) {
        eprintln!("plain_search: {e}");
        std::process::exit(1);
    }
}

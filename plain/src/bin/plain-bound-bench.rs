//! `plain-bound-bench IMAGE RUNS [ADDRESS]`: bounds every address of the image, or the one given
//! in hexadecimal, RUNS times. Prints the bounds a second, the mean and the slowest single bounds.

use plain::{bound, Device, ADDRESSES, MOST_PATH_BYTES};
use std::hint::black_box;
use std::ops::Range;
use std::time::{Duration, Instant};

fn main() {
    let words: Vec<String> = std::env::args().skip(1).collect();
    let Some((image, runs, addresses)) = understood(&words) else {
        eprintln!("usage: plain-bound-bench IMAGE RUNS [ADDRESS]");
        return;
    };
    measure(&image, runs, addresses);
}

fn understood(words: &[String]) -> Option<(Vec<u8>, u32, Range<u32>)> {
    let image = std::fs::read(words.first()?).ok()?;
    let runs = words.get(1)?.parse().ok()?;
    let addresses = match words.get(2) {
        Some(word) => {
            let address = u32::from_str_radix(word, 16).ok().filter(|address| *address < ADDRESSES as u32)?;
            address..address + 1
        }
        None => 0..ADDRESSES as u32,
    };
    Some((image, runs, addresses))
}

fn measure(image: &[u8], runs: u32, addresses: Range<u32>) {
    let [mut path, mut deep] = [vec![0; MOST_PATH_BYTES], vec![0; MOST_PATH_BYTES]];
    let mut bounds = 0u32;
    let mut spent = Duration::ZERO;
    let mut slowest = (Duration::ZERO, 0);
    // Other programs hold up a bound now and then; the fastest of an address's runs shows it least.
    let mut slowest_at_best = (Duration::ZERO, 0);
    for address in addresses {
        let mut fastest = Duration::MAX;
        for _ in 0..runs {
            let start = Instant::now();
            black_box(bound(Device::Em73862, black_box(image), 0, address, &mut path, &mut deep));
            let time = start.elapsed();
            bounds += 1;
            spent += time;
            fastest = fastest.min(time);
            slowest = slowest.max((time, address));
        }
        if runs > 0 {
            slowest_at_best = slowest_at_best.max((fastest, address));
        }
    }
    let seconds = spent.as_secs_f64();
    println!("{bounds} bounds in {seconds:.3} s: {:.0} bounds a second", bounds as f64 / seconds);
    println!("mean {:.1} microseconds", seconds * 1e6 / bounds as f64);
    print_slowest("slowest", slowest);
    print_slowest("slowest by each address's fastest run", slowest_at_best);
}

fn print_slowest(what: &str, (time, address): (Duration, u32)) {
    println!("{what} {:.1} microseconds, at {address:04X}", time.as_secs_f64() * 1e6);
}

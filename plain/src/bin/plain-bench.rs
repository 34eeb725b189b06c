//! `plain-bench IMAGE RUNS < FRAMES`: makes RUNS runs of the frames, each from the record that
//! the one before left. Prints the last run's number, and on standard error the steps a second.

use plain::{fresh, numbers, run, Device, Options, MOST_FRAMES};
use std::io::{self, Read};
use std::time::Instant;

const DEVICE: Device = Device::Em73862;

fn main() {
    let mut words = std::env::args().skip(1);
    let (Some(name), Some(Ok(runs))) = (words.next(), words.next().map(|word| word.parse::<u32>())) else {
        eprintln!("usage: plain-bench IMAGE RUNS < FRAMES");
        return;
    };
    // An image that cannot be read is refused as one of a wrong size.
    let image = std::fs::read(name).unwrap_or_default();
    let frames = match read_frames() {
        Ok(frames) => frames,
        Err(error) => {
            eprintln!("frames: {error}");
            return;
        }
    };
    measure(&image, &frames, runs);
}

fn read_frames() -> io::Result<Vec<u8>> {
    let mut frames = Vec::new();
    let most_bytes = (MOST_FRAMES * DEVICE.frame_length()) as u64;
    io::stdin().lock().take(most_bytes).read_to_end(&mut frames)?;
    Ok(frames)
}

fn measure(image: &[u8], frames: &[u8], runs: u32) {
    let options = Options { device: DEVICE, wake: 0xFF, sound: false };
    let mut machine = fresh(DEVICE);
    let mut number = numbers::NONE;
    let mut steps = 0u64;
    let start = Instant::now();
    for _ in 0..runs {
        match run(image, options, &machine, frames) {
            Ok(ran) => {
                machine = ran.machine;
                steps += ran.steps as u64;
                number = ran.stop;
            }
            Err(refusal) => number = refusal,
        }
    }
    let seconds = start.elapsed().as_secs_f64();
    println!("{number:02}");
    eprintln!("{steps} steps in {seconds:.3} s: {:.0} steps a second", steps as f64 / seconds);
}

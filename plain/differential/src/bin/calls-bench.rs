//! `calls-bench IMAGE`: times the proved calls and the plain emulator in one process, by turns. IMAGE is that of the steps,
//! plain/differential/data/loop.bin. On another processor than x86-64 it says only that times there mean nothing.

#[cfg(not(linked))]
fn main() {
    println!("bench: the proved calls are x86-64 code, and times on another processor mean nothing");
}

#[cfg(linked)]
fn main() {
    linked::main()
}

#[cfg(linked)]
mod linked {
    use differential::chance::Chance;
    use differential::images::{calm, Codes};
    use differential::layout::{machine_of, record_of};
    use differential::plainly::slots_of;
    use differential::proved::linked::header;
    use plain::{Device, Insn, Machine, Options, IMAGE_SIZE, MOST_FRAMES, MOST_PATH_BYTES, WORST};
    use std::hint::black_box;
    use std::time::Instant;

    /// Each side is timed so often, the two by turns, and the median is told.
    const TURNS: usize = 9;

    const OPTIONS: Options = Options { device: Device::Em73862, wake: 0xFF, sound: false };
    const FRAME: &[u8; 3] = b"FF1";

    pub fn main() {
        let name = std::env::args().nth(1).unwrap_or_default();
        let image = std::fs::read(&name).unwrap_or_default();
        if image.len() != IMAGE_SIZE {
            eprintln!("usage: calls-bench IMAGE, of 8,192 bytes");
            std::process::exit(2);
        }
        println!("The proved calls of include/em73862.h beside the plain emulator, in one process on one thread:");
        println!(
            "{TURNS} turns of each, taken alternately, and the medians. Records and paths are not cleared between"
        );
        println!("calls: a call finds what the one before left. What a call clears for itself is in its time.");
        println!();
        println!("{:<63} {:>14} {:>14} {:>7}", "", "proved a second", "plain a second", "ratio");
        runs(&image);
        single_steps(&image);
        bounds();
        codes();
        println!();
        println!("A ratio over 1: the proved call is faster. em73862_run and em73862_step take the 416 bytes of the");
        println!("record apart and put them together in each call, which counts for a single step and not for a run");
        println!(
            "of 65,536. Plain's step and run copy their Machine instead, but for the line with the record's bytes."
        );
    }

    /// Times `count` of something on each side by turns, and prints both and the ratio.
    fn compare(what: &str, count: usize, mut proved: impl FnMut(), mut plain: impl FnMut()) {
        let mut seconds = [Vec::new(), Vec::new()];
        for _ in 0..TURNS {
            let start = Instant::now();
            proved();
            seconds[0].push(start.elapsed().as_secs_f64());
            let start = Instant::now();
            plain();
            seconds[1].push(start.elapsed().as_secs_f64());
        }
        let [proved, plain] = seconds.map(|mut seconds| {
            seconds.sort_by(f64::total_cmp);
            count as f64 / seconds[TURNS / 2]
        });
        println!("{what:<63} {proved:>14.0} {plain:>14.0} {:>7.2}", proved / plain);
    }

    fn runs(image: &[u8]) {
        const RUNS: usize = 20;
        let frames = FRAME.repeat(MOST_FRAMES);
        let mut record = record_of(&plain::fresh(OPTIONS.device));
        let mut machine = plain::fresh(OPTIONS.device);
        let proved = || {
            for _ in 0..RUNS {
                let (mut steps, mut cycles) = (0, 0);
                // SAFETY: each pointer is that of a whole slice with its length beside it, or of a number.
                let number = unsafe {
                    header::em73862_run(
                        image.as_ptr(),
                        image.len(),
                        OPTIONS.wake,
                        0,
                        record.as_mut_ptr(),
                        record.len(),
                        frames.as_ptr(),
                        frames.len(),
                        &mut steps,
                        &mut cycles,
                    )
                };
                assert_eq!((number, steps as usize), (0, MOST_FRAMES));
            }
        };
        let plain = || {
            for _ in 0..RUNS {
                let ran = plain::run(image, OPTIONS, &machine, &frames).expect("the run is not refused");
                assert_eq!((ran.stop, ran.steps as usize), (0, MOST_FRAMES));
                machine = ran.machine;
            }
        };
        compare("steps of em73862_run, runs of 65,536 frames", RUNS * MOST_FRAMES, proved, plain);
    }

    fn single_steps(image: &[u8]) {
        const STEPS: usize = 200_000;
        let mut record = record_of(&plain::fresh(OPTIONS.device));
        let mut proved = || {
            for _ in 0..STEPS {
                let mut cycles = 0;
                // SAFETY: each pointer is that of a whole slice with its length beside it, or of a number.
                let number = unsafe {
                    header::em73862_step(
                        image.as_ptr(),
                        image.len(),
                        OPTIONS.wake,
                        0,
                        record.as_mut_ptr(),
                        record.len(),
                        FRAME.as_ptr(),
                        FRAME.len(),
                        &mut cycles,
                    )
                };
                assert_eq!(number, 0);
            }
        };
        let mut machine = plain::fresh(OPTIONS.device);
        let plain = || {
            for _ in 0..STEPS {
                machine = stepped(image, &machine);
            }
        };
        compare("em73862_step, plain's step on a Machine", STEPS, &mut proved, plain);
        let mut bytes = record_of(&plain::fresh(OPTIONS.device));
        let plain = || {
            for _ in 0..STEPS {
                let machine = machine_of(&bytes).expect("the bytes are a record");
                bytes = record_of(&stepped(image, &machine));
            }
        };
        compare("em73862_step, plain's step on the record's bytes", STEPS, &mut proved, plain);
    }

    fn stepped(image: &[u8], machine: &Machine) -> Machine {
        let stepped = plain::step(image, OPTIONS, machine, FRAME).expect("the step is not refused");
        assert_eq!(stepped.stop, 0);
        stepped.machine
    }

    fn bounds() {
        bound("em73862_bound, a handler of 20 rows, its path given", &short_handler(), 0x100, 2_000);
        for name in ["kitchen-timer", "calling-handler"] {
            bound(&format!("em73862_bound, examples/{name}.bin from 0006"), &example(name), 6, 1_000);
        }
        for kind in WORST {
            let worst = plain::worst_of(kind).expect("each of the worst has an image");
            let what = format!("em73862_bound, {kind} of plain-worst from {:04X} ({})", worst.start, worst.answer);
            bound(&what, &worst.image, worst.start as u32, 40);
        }
    }

    fn example(name: &str) -> [u8; IMAGE_SIZE] {
        let path = format!("{}/../../examples/{name}.bin", env!("CARGO_MANIFEST_DIR"));
        let bytes = std::fs::read(path).expect("the example is there");
        bytes.try_into().expect("the example has an image's size")
    }

    /// At 0100h: a test, a branch over a load, and two rows more, by turns; 20 rows with the RTI.
    fn short_handler() -> [u8; IMAGE_SIZE] {
        let mut image = [0; IMAGE_SIZE];
        let mut at = 0x100;
        while at < 0x113 {
            let test_and_branch = [0xF8, (at + 3) as u8 & 0x3F, 0xD1, 0x5E];
            image[at..at + 4].copy_from_slice(&test_and_branch);
            at += 4;
        }
        image[0x113] = 0x4D;
        image
    }

    fn bound(what: &str, image: &[u8; IMAGE_SIZE], address: u32, count: usize) {
        let [mut path, mut deep] = [vec![0; MOST_PATH_BYTES], vec![0; MOST_PATH_BYTES]];
        let (mut plain_path, mut plain_deep) = (path.clone(), deep.clone());
        let expected = plain::bound(OPTIONS.device, image, 0, address, &mut plain_path, &mut plain_deep).number();
        let proved = || {
            for _ in 0..count {
                let (mut value, mut depth) = (0, 0);
                // SAFETY: each pointer is that of a whole slice with its length beside it, or of a number.
                let number = unsafe {
                    header::em73862_bound(
                        image.as_ptr(),
                        image.len(),
                        address,
                        path.as_mut_ptr(),
                        path.len(),
                        deep.as_mut_ptr(),
                        deep.len(),
                        &mut value,
                        &mut depth,
                    )
                };
                assert_eq!(number, expected);
            }
        };
        let plain = || {
            for _ in 0..count {
                let image = black_box(image);
                black_box(plain::bound(OPTIONS.device, image, 0, address, &mut plain_path, &mut plain_deep));
            }
        };
        compare(what, count, proved, plain);
    }

    fn codes() {
        let mut chance = Chance::new(1);
        let codes = Codes::new(&mut chance, OPTIONS.device);
        let image = calm(&mut chance, &codes);
        let mut read: Vec<Insn> = Vec::new();
        for address in 0..IMAGE_SIZE {
            read.extend(plain::read(OPTIONS.device, &image, 0, address).ok());
        }
        reads(&image);
        writes(&read);
    }

    fn reads(image: &[u8]) {
        const PASSES: usize = 40;
        let proved = || {
            for address in (0..PASSES).flat_map(|_| 0..IMAGE_SIZE as u32) {
                let (mut row, mut a, mut b) = (0, 0, 0);
                // SAFETY: each pointer is that of a whole slice with its length beside it, or of a number.
                black_box(unsafe {
                    header::em73862_read(image.as_ptr(), image.len(), address, &mut row, &mut a, &mut b)
                });
            }
        };
        let plain = || {
            for address in (0..PASSES).flat_map(|_| 0..IMAGE_SIZE) {
                let _ = black_box(plain::read(OPTIONS.device, black_box(image), 0, address));
            }
        };
        compare("em73862_read, every address of an image of rows", PASSES * IMAGE_SIZE, proved, plain);
    }

    fn writes(insns: &[Insn]) {
        const PASSES: usize = 10;
        let slots: Vec<(u8, u16, u8)> =
            insns.iter().map(|insn| (insn.row, slots_of(*insn))).map(|(row, (a, b))| (row, a, b)).collect();
        let proved = || {
            for (row, a, b) in (0..PASSES).flat_map(|_| &slots) {
                let [mut length, mut b0, mut b1, mut b2] = [0; 4];
                // SAFETY: each pointer is that of a number.
                black_box(unsafe { header::em73862_write(*row, *a, *b, &mut length, &mut b0, &mut b1, &mut b2) });
            }
        };
        let plain = || {
            for insn in (0..PASSES).flat_map(|_| insns) {
                let _ = black_box(plain::write(black_box(*insn)));
            }
        };
        compare("em73862_write, what was read (plain's goes by the letters)", PASSES * insns.len(), proved, plain);
    }
}

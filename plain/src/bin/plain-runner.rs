//! `plain-runner [--device NAME] IMAGE < SCRIPT`: document 01's listing of a run, a step a line.

use plain::{fresh, numbers, step, step_line, Device, Options, HEADER};
use std::fs::File;
use std::io::{self, BufRead, BufReader, BufWriter, Read, Write};

const USAGE: &str = "usage: plain-runner [--device NAME] IMAGE < SCRIPT";

fn main() {
    let words: Vec<String> = std::env::args().skip(1).collect();
    let Some((device, words)) = Device::chosen(&words) else {
        eprintln!("{USAGE}");
        return;
    };
    // A reader that has gone away is no fault of the run.
    let _ = list_run(device, words.first());
}

fn list_run(device: Device, image_name: Option<&String>) -> io::Result<()> {
    let mut output = BufWriter::new(io::stdout().lock());
    if image_name.is_none() {
        eprintln!("{USAGE}");
    }
    let Some(image) = image_name.and_then(|name| read_image(device, name)) else {
        writeln!(output, "refused {:02}", numbers::IMAGE_SIZE)?;
        return output.flush();
    };
    writeln!(output, "{HEADER}")?;
    let mut script = BufReader::new(io::stdin().lock());
    let options = Options { device, wake: 0xFF, sound: false };
    let mut machine = fresh(device);
    while let Some(line) = next_line(&mut script, device.frame_length(), &mut output)? {
        match step(&image, options, &machine, &line) {
            Ok(stepped) => {
                machine = stepped.machine;
                writeln!(output, "{}", step_line(&machine, stepped.cycles, stepped.stop))?;
                if stepped.stop != numbers::NONE {
                    break;
                }
            }
            Err(number) => {
                writeln!(output, "refused {number:02}")?;
                break;
            }
        }
    }
    output.flush()
}

/// The image, if it can be read and is as long as the device's.
fn read_image(device: Device, name: &str) -> Option<Vec<u8>> {
    let mut image = Vec::new();
    let file = File::open(name).ok()?;
    file.take(device.image_size() as u64 + 1).read_to_end(&mut image).ok()?;
    (image.len() == device.image_size()).then_some(image)
}

/// The next line without its LF, or as much of it as shows that it is no frame. The output is
/// flushed before the script may have to be waited for.
fn next_line(
    script: &mut BufReader<impl Read>,
    frame_length: usize,
    output: &mut impl Write,
) -> io::Result<Option<Vec<u8>>> {
    if !script.buffer().contains(&b'\n') {
        output.flush()?;
    }
    let mut line = Vec::new();
    script.take(frame_length as u64 + 1).read_until(b'\n', &mut line)?;
    if line.is_empty() {
        return Ok(None);
    }
    if line.last() == Some(&b'\n') {
        line.pop();
    }
    Ok(Some(line))
}

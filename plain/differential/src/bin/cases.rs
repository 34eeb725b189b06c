//! `cases`: puts the cases of `differential::cases`, whose answers were written from the documents, to the proved calls and to the
//! plain emulator. Its last line is 'N passed, M failed'; exit status 0 only where none failed.

use differential::cases::{failures, groups, rows, worked, Case};
use differential::plainly;
use differential::proved::Proved;
use std::process::exit;

fn main() {
    let rows = rows::cases();
    let gaps = rows::gaps(&rows);
    let (steps, reads): (Vec<Case>, Vec<Case>) = rows.into_iter().map(|case| (case.step, case.read)).unzip();
    let rows = [("every row: steps", steps), ("every row: codes read", reads)];
    let mut proved = Proved::default();
    let (mut passed, mut failed) = (0, gaps.len());
    for gap in gaps {
        println!("{gap}");
    }
    for (name, cases) in rows.into_iter().chain(groups()) {
        let failures = failures(&mut proved, &cases);
        for failure in &failures {
            println!("{failure}");
        }
        println!("{name}: {} calls", cases.len());
        // Each call is put to two sides.
        passed += 2 * cases.len() - failures.len();
        failed += failures.len();
    }
    let by_proved = worked::judged("proved", |call| proved.answers(&[call]).remove(0));
    let by_plain = worked::judged("plain", |call| plainly::answer(&call));
    for (compared, failures) in [by_proved, by_plain] {
        for failure in &failures {
            println!("{failure}");
        }
        println!("worked values: {compared} lines");
        passed += compared - failures.len();
        failed += failures.len();
    }
    println!("{passed} passed, {failed} failed");
    exit((failed > 0) as i32);
}

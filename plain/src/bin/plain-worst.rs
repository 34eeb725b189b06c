//! `plain-worst KIND FILE`: writes an image on which a bound takes long, and prints the address
//! to bound and the answer that is due.

use plain::{worst_of, WORST};

fn main() {
    let words: Vec<String> = std::env::args().skip(1).collect();
    let kind = words.first().map_or("", |kind| kind.as_str());
    let (Some(worst), Some(file)) = (worst_of(kind), words.get(1)) else {
        eprintln!("usage: plain-worst {} FILE", WORST.join("|"));
        std::process::exit(2);
    };
    if let Err(error) = std::fs::write(file, worst.image) {
        eprintln!("{file}: {error}");
        std::process::exit(1);
    }
    println!("{:04X} {}", worst.start, worst.answer);
}

//! A listing against the runner's: document 02's Q-13 by hand.

use plain::{compare_listing, listing_lines, Compared, Device};

const SCRIPT: &[u8] = b"FF1\nFF1\nFF1\n";

/// Document 01's example of a listing: D0 D3 6E 55, zeros after.
fn image() -> Vec<u8> {
    let mut image = vec![0; 8192];
    image[..4].copy_from_slice(&[0xD0, 0xD3, 0x6E, 0x55]);
    image
}

const OURS: &str = "PC A H L S CZS C X\n0001 0 0 0 0 011 1 00\n0002 3 0 0 0 001 1 00\n0004 8 0 0 0 001 2 00\n";

fn compare(listing: &str) -> Result<Compared, u8> {
    compare_listing(Device::Em73862, &image(), SCRIPT, listing.as_bytes())
}

fn differs(line: u64, field: u8) -> Result<Compared, u8> {
    Ok(Compared::Differs { line, field })
}

#[test]
fn the_listing_itself_is_the_same() {
    assert_eq!(listing_lines(Device::Em73862, &image(), SCRIPT).unwrap().concat(), OURS);
    assert_eq!(compare(OURS), Ok(Compared::Same));
}

#[test]
fn the_first_field_of_the_first_line_is_named() {
    assert_eq!(compare(&OURS.replace("0002 3", "0003 4")), differs(3, 1));
    assert_eq!(compare(&OURS.replace("2 00", "2 01")), differs(4, 8));
    assert_eq!(compare(&OURS.replace("2 00\n", "2 00\r\n")), differs(4, 8));
    assert_eq!(compare(&OURS.replace("011", "111").replace("2 00", "3 00")), differs(2, 6));
}

#[test]
fn field_0_is_the_header_the_spacing_and_a_line_too_many_or_too_few() {
    assert_eq!(compare(&OURS.to_lowercase()), differs(1, 0));
    assert_eq!(compare(""), differs(1, 0));
    assert_eq!(compare(&OURS.replace("0002 3", "0003  3")), differs(3, 0));
    assert_eq!(compare(&OURS.replace("0002 3 ", "0003 ")), differs(3, 0));
    assert_eq!(compare(OURS.trim_end()), differs(4, 0));
    assert_eq!(compare(&OURS[..OURS.len() - 22]), differs(4, 0));
    assert_eq!(compare(&(OURS.to_owned() + "\n")), differs(5, 0));
}

#[test]
fn refusals_come_before_the_listing() {
    assert_eq!(compare_listing(Device::Em73P982, &image(), SCRIPT, b""), Err(1));
    assert_eq!(compare_listing(Device::Em73862, &image(), b"FF1\nFF1", b""), differs(1, 0));
    assert_eq!(compare_listing(Device::Em73862, &image(), b"FF1\n\nFF1\n", b""), Err(3));
    let mut stops = image();
    stops[0] = 0x54;
    assert_eq!(compare_listing(Device::Em73862, &stops, b"FF1\nbad\n", b""), differs(1, 0));
}

//! Texts of document 02, Q-3, and readings of it.

use plain::{hex_record, read_hex, text_size, write_hex, Device, HexRefusal};

const END: &str = ":00000001FF\n";

fn read(text: &str) -> Result<Vec<u8>, (u8, usize)> {
    read_of(Device::Em73862, text)
}

fn read_of(device: Device, text: &str) -> Result<Vec<u8>, (u8, usize)> {
    let mut image = vec![0x5A; device.image_size()];
    match read_hex(device, text.as_bytes(), &mut image) {
        Ok(()) => Ok(image),
        Err(HexRefusal { number, line }) => {
            assert_eq!(image, vec![0x5A; device.image_size()], "a refused read leaves the image buffer unchanged");
            Err((number, line))
        }
    }
}

#[test]
fn a_written_image_reads_back() {
    for (device, size) in [(Device::Em73862, 22_540), (Device::Em73P982, 45_068)] {
        let image: Vec<u8> = (0..device.image_size()).map(|at| (at * 7 / 3) as u8).collect();
        let mut text = vec![0; text_size(device)];
        write_hex(device, &image, &mut text).unwrap();
        assert_eq!(text.len(), size);
        let text = String::from_utf8(text).unwrap();
        assert!(text.starts_with(":100000000002040709"));
        assert!(text.ends_with(END));
        assert_eq!(read_of(device, &text), Ok(image));
    }
}

#[test]
fn bytes_not_mentioned_are_ff() {
    let image = read(&(hex_record(0x0010, 0, &[1, 2]) + END)).unwrap();
    assert_eq!((&image[0x0F..0x13], image[0x1FFF]), (&[0xFF, 1, 2, 0xFF][..], 0xFF));
}

#[test]
fn faults_in_their_order() {
    let data = hex_record(0x1FFF, 0, &[7]);
    assert_eq!(read(""), Err((45, 1)));
    assert_eq!(read(&data), Err((45, 2)));
    assert_eq!(read(&format!("{END}\n")), Err((45, 2)));
    assert_eq!(read(&format!("{data}{data}{END}")), Err((44, 2)));
    assert_eq!(read(&(hex_record(0x1FFF, 0, &[7, 8]) + END)), Err((43, 1)));
    assert_eq!(read(&(hex_record(0, 4, &[0, 0]) + END)), Err((42, 1)));
    assert_eq!(read(":00000001FE\n"), Err((41, 1)));
    assert_eq!(read(":0100000100FE\n"), Err((40, 1)));
    assert_eq!(read(&format!("{END}\r")), Err((45, 2)));
    assert_eq!(read(":00000001FF\r"), Err((40, 1)));
    assert!(read(":00000001ff\r\n").is_ok());
}

#[test]
fn the_last_address_is_the_devices() {
    let at_2000 = hex_record(0x2000, 0, &[7]) + END;
    assert_eq!(read(&at_2000), Err((43, 1)));
    assert_eq!(read_of(Device::Em73P982, &at_2000).unwrap()[0x2000], 7);
    assert!(read_of(Device::Em73P982, &(hex_record(0x3FFF, 0, &[7]) + END)).is_ok());
    assert_eq!(read_of(Device::Em73P982, &(hex_record(0x3FFF, 0, &[7, 8]) + END)), Err((43, 1)));
}

use super::*;

fn adler(bytes: &[u8]) -> u32 {
    let mut adler = Adler::default();
    adler.add(bytes);
    adler.checksum()
}

/// The check value of the CRC, and others that zlib gives.
#[test]
fn known_crcs() {
    assert_eq!(crc(b"123456789"), 0xCBF4_3926);
    assert_eq!(crc(b"IEND"), 0xAE42_6082);
    assert_eq!(crc(&[]), 0);
    assert_eq!(crc(&[255; 70_000]), 0x80F9_5A0A);
}

#[test]
fn known_adlers() {
    assert_eq!(adler(b"Wikipedia"), 0x11E6_0398);
    assert_eq!(adler(&[]), 1);
    assert_eq!(adler(&[255; 70_000]), 0x2A28_6E81);
}

#[test]
fn adlers_in_parts() {
    let bytes: Vec<u8> =
        (0..100_000u32).map(|place| (place.wrapping_mul(place) >> 3) as u8).collect();
    let mut parts = Adler::default();
    bytes.chunks(777).for_each(|part| parts.add(part));
    assert_eq!(parts.checksum(), adler(&bytes));
}

/// Two columns, three rows, three colours; the checksums are zlib's.
#[test]
fn a_small_file() {
    let mut png = Png::new(2, 3, &[0, 0, 0, 255, 0, 0, 9, 8, 7]);
    [[0, 1], [1, 0], [2, 2]].iter().for_each(|row| png.row(row));
    let row = [0, 0, 0, 8, b'I', b'D', b'A', b'T', 0, 3, 0, 252, 255, 0];
    let parts: [&[u8]; 13] = [
        &[137, b'P', b'N', b'G', 13, 10, 26, 10],
        &[0, 0, 0, 13, b'I', b'H', b'D', b'R', 0, 0, 0, 2, 0, 0, 0, 3, 8, 3, 0, 0, 0],
        &[142, 52, 46, 179],
        &[0, 0, 0, 9, b'P', b'L', b'T', b'E', 0, 0, 0, 255, 0, 0, 9, 8, 7, 62, 203, 102, 40],
        &[0, 0, 0, 2, b'I', b'D', b'A', b'T', 0x78, 0x01, 236, 26, 126, 210],
        &row,
        &[0, 1, 251, 102, 204, 33],
        &row,
        &[1, 0, 149, 122, 205, 246],
        &row,
        &[2, 2, 80, 89, 255, 25],
        &[0, 0, 0, 9, b'I', b'D', b'A', b'T', 1, 0, 0, 255, 255, 0, 27, 0, 7, 22, 252, 16, 98],
        &[0, 0, 0, 0, b'I', b'E', b'N', b'D', 174, 66, 96, 130],
    ];
    assert_eq!(png.finish(), parts.concat());
}

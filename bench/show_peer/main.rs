// A plain program to compare with: prints the lines of a capture whose lines are `frames` with frames of Codec 8, without a JSON library.
use std::io::{BufWriter, Write};

fn nibble(digit: u8) -> Option<u8> {
    match digit {
        b'0'..=b'9' => Some(digit - b'0'),
        b'a'..=b'f' => Some(digit - b'a' + 10),
        b'A'..=b'F' => Some(digit - b'A' + 10),
        _ => None,
    }
}

fn number(bytes: &[u8]) -> u64 {
    bytes.iter().fold(0, |n, byte| n << 8 | u64::from(*byte))
}

fn crc(table: &[u16; 256], bytes: &[u8]) -> u16 {
    bytes.iter().fold(0, |crc, byte| crc >> 8 ^ table[usize::from(crc as u8 ^ byte)])
}

fn elements(body: &[u8], at: &mut usize, width: usize, out: &mut Vec<u8>) {
    let count = body[*at];
    *at += 1;
    for _ in 0..count {
        if out.last() != Some(&b'[') {
            out.push(b',');
        }
        let value = number(&body[*at + 1..*at + 1 + width]);
        write!(out, "[{},{},{}]", body[*at], width, value).unwrap();
        *at += 1 + width;
    }
}

fn record(body: &[u8], at: &mut usize, line: usize, out: &mut Vec<u8>) {
    let r = &body[*at..];
    let (time, priority) = (number(&r[..8]), r[8]);
    let (longitude, latitude) = (number(&r[9..13]) as i32, number(&r[13..17]) as i32);
    let (altitude, angle, satellites, speed) = (number(&r[17..19]) as i16, number(&r[19..21]), r[21], number(&r[22..24]));
    write!(out, "{{\"altitude\":{altitude},\"angle\":{angle},\"event\":{},\"generation\":null,\"io\":[", r[24]).unwrap();
    *at += 26;
    for width in [1, 2, 4, 8] {
        elements(body, at, width, out);
    }
    writeln!(out, "],\"item\":\"record\",\"latitude\":{latitude},\"line\":{line},\"longitude\":{longitude},\"nx\":[],\"priority\":{priority},\"satellites\":{satellites},\"speed\":{speed},\"time\":{time}}}").unwrap();
}

fn main() {
    let text = std::fs::read(std::env::args().nth(1).expect("a capture")).expect("the capture");
    let mut table = [0u16; 256];
    for (n, entry) in table.iter_mut().enumerate() {
        *entry = (0..8).fold(n as u16, |crc, _| crc >> 1 ^ if crc & 1 == 1 { 0xA001 } else { 0 });
    }
    let mut sink = BufWriter::new(std::io::stdout().lock());
    let mut out = Vec::new();
    for (i, line) in text.split(|byte| *byte == b'\n').enumerate() {
        let Some(digits) = line.strip_prefix(b"frames ") else { continue };
        let frame: Vec<u8> = digits.chunks(2).map(|pair| nibble(pair[0]).expect("a digit") << 4 | nibble(pair[1]).expect("a digit")).collect();
        let body = &frame[8..frame.len() - 4];
        assert!(number(&frame[..4]) == 0 && number(&frame[4..8]) == body.len() as u64);
        assert!(number(&frame[frame.len() - 4..]) == u64::from(crc(&table, body)));
        out.clear();
        writeln!(out, "{{\"codec\":{},\"count\":{},\"item\":\"packet\",\"line\":{}}}", body[0], body[1], i + 1).unwrap();
        let mut at = 2;
        for _ in 0..body[1] {
            record(body, &mut at, i + 1, &mut out);
        }
        sink.write_all(&out).expect("standard output");
    }
    sink.flush().expect("standard output");
}

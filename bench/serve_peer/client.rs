// The devices' side of bench/serve.py: as many connections as asked, each in a thread, which sends packets of Codec 8 records one by one,
// each after the count of the one before. Arguments: PORT CONNECTIONS PACKETS RECORDS. All log in, then it prints the packets a second.
use std::io::{Read, Result, Write};
use std::net::TcpStream;
use std::sync::{Arc, Barrier};
use std::time::Instant;
use std::{env, thread};

const FIRST_IMEI: u64 = 350_000_000_000_000;

fn crc(bytes: &[u8]) -> u16 {
    bytes.iter().fold(0, |crc, byte| (0..8).fold(crc ^ u16::from(*byte), |v: u16, _| if v & 1 == 1 { v >> 1 ^ 0xA001 } else { v >> 1 }))
}

// A frame of records of these times, all else in them zero.
fn frame(first: u64, records: u64) -> Vec<u8> {
    let mut body = vec![8, records as u8];
    for time in first..first + records {
        body.extend_from_slice(&time.to_be_bytes());
        body.extend_from_slice(&[0; 22]);
    }
    body.push(records as u8);
    let mut frame = vec![0; 4];
    frame.extend_from_slice(&(body.len() as u32).to_be_bytes());
    frame.extend_from_slice(&body);
    frame.extend_from_slice(&u32::from(crc(&body)).to_be_bytes());
    frame
}

fn device(port: u16, number: u64, frames: &[Vec<u8>], records: u64, ready: &Barrier) -> Result<()> {
    let mut link = TcpStream::connect(("127.0.0.1", port))?;
    link.set_nodelay(true)?;
    link.write_all(format!("\0\x0f{:015}", FIRST_IMEI + number).as_bytes())?;
    let mut accepted = [0];
    link.read_exact(&mut accepted)?;
    assert_eq!(accepted, [1]);
    ready.wait();
    for frame in frames {
        link.write_all(frame)?;
        let mut count = [0; 4];
        link.read_exact(&mut count)?;
        assert_eq!(u64::from(u32::from_be_bytes(count)), records);
    }
    Ok(())
}

fn main() {
    let words: Vec<u64> = env::args().skip(1).map(|word| word.parse().unwrap()).collect();
    let (port, connections, packets, records) = (words[0] as u16, words[1], words[2], words[3]);
    let frames: Arc<Vec<Vec<u8>>> = Arc::new((0..packets).map(|n| frame(n * records, records)).collect());
    let ready = Arc::new(Barrier::new(connections as usize + 1));
    let devices: Vec<_> = (0..connections)
        .map(|number| {
            let (frames, ready) = (frames.clone(), ready.clone());
            thread::spawn(move || device(port, number, &frames, records, &ready).unwrap())
        })
        .collect();
    ready.wait();
    let begun = Instant::now();
    devices.into_iter().for_each(|device| device.join().unwrap());
    println!("{:.1}", (connections * packets) as f64 / begun.elapsed().as_secs_f64());
}

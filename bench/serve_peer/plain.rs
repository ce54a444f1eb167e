// A plain server to compare with: Codec 8 frames over TCP, each record of a device once in an archive of fmb's format, two syncs a packet
// before its count. Arguments: ADDRESS ARCHIVE WORKERS SESSIONS.
use std::collections::HashSet;
use std::fs::{File, OpenOptions};
use std::io::{Read, Result, Write};
use std::net::{TcpListener, TcpStream};
use std::os::unix::fs::FileExt;
use std::sync::{Arc, Mutex};
use std::{env, thread};

struct Archive {
    file: File,
    end: u64,
    known: HashSet<(u64, Box<[u8]>)>,
}

impl Archive {
    fn open(path: &str) -> Result<Archive> {
        let file = OpenOptions::new().read(true).write(true).create(true).truncate(true).open(path)?;
        file.write_all_at(b"FMBARCH1\0", 0)?;
        file.sync_data()?;
        Ok(Archive { file, end: 9, known: HashSet::new() })
    }

    // Archives those of the records that it hasn't, and returns when they are durable.
    fn admit(&mut self, imei: u64, records: &[&[u8]]) -> Result<()> {
        let fresh: Vec<&[u8]> = records.iter().copied().filter(|r| self.known.insert((imei, (*r).into()))).collect();
        if fresh.is_empty() {
            return Ok(());
        }
        let length = 10 + fresh.iter().map(|r| r.len()).sum::<usize>();
        let mut entry = Vec::with_capacity(length + 5);
        entry.extend_from_slice(&(length as u32).to_be_bytes());
        entry.extend_from_slice(&imei.to_be_bytes());
        entry.extend_from_slice(&[8, fresh.len() as u8]);
        fresh.iter().for_each(|r| entry.extend_from_slice(r));
        entry.push(0);
        self.file.write_all_at(&entry, self.end)?;
        self.file.sync_data()?;
        self.file.write_all_at(&[0xA5], self.end - 1)?;
        self.file.sync_data()?;
        self.end += entry.len() as u64;
        Ok(())
    }
}

fn table() -> [u16; 256] {
    let mut table = [0; 256];
    for (n, entry) in table.iter_mut().enumerate() {
        *entry = (0..8).fold(n as u16, |v, _| if v & 1 == 1 { v >> 1 ^ 0xA001 } else { v >> 1 });
    }
    table
}

fn crc(table: &[u16; 256], bytes: &[u8]) -> u16 {
    bytes.iter().fold(0, |crc, byte| crc >> 8 ^ table[usize::from(crc as u8 ^ byte)])
}

// The records of a body; None where it is no Codec 8 body.
fn records(body: &[u8]) -> Option<Vec<&[u8]>> {
    if *body.first()? != 8 {
        return None;
    }
    let (mut found, mut at) = (Vec::new(), 2);
    for _ in 0..*body.get(1)? {
        let from = at;
        let total = usize::from(*body.get(at + 25)?);
        at += 26;
        let mut seen = 0;
        for width in [1, 2, 4, 8] {
            let count = usize::from(*body.get(at)?);
            seen += count;
            at += 1 + count * (1 + width);
        }
        if seen != total {
            return None;
        }
        found.push(body.get(from..at)?);
    }
    (at + 1 == body.len() && body[at] == body[1]).then_some(found)
}

fn session(mut link: TcpStream, archive: &Mutex<Archive>, table: &[u16; 256]) -> Result<()> {
    link.set_nodelay(true)?;
    let mut login = [0; 17];
    link.read_exact(&mut login)?;
    let Some(imei) = std::str::from_utf8(&login[2..]).ok().and_then(|t| t.parse().ok()) else { return Ok(()) };
    link.write_all(&[1])?;
    let (mut have, mut used, mut piece) = (Vec::new(), 0, [0; 4096]);
    loop {
        let size = have.get(used + 4..used + 8).map(|b: &[u8]| u32::from_be_bytes(b.try_into().unwrap()) as usize);
        match size {
            Some(size) if have.len() >= used + size + 12 => {
                let body = &have[used + 8..used + 8 + size];
                let sum = &have[used + 8 + size..used + 12 + size];
                if u32::from_be_bytes(sum.try_into().unwrap()) != u32::from(crc(table, body)) {
                    return Ok(());
                }
                let Some(found) = records(body) else { return Ok(()) };
                archive.lock().unwrap().admit(imei, &found)?;
                link.write_all(&(found.len() as u32).to_be_bytes())?;
                used += size + 12;
            }
            _ => {
                have.drain(..used);
                used = 0;
                match link.read(&mut piece)? {
                    0 => return Ok(()),
                    count => have.extend_from_slice(&piece[..count]),
                }
            }
        }
    }
}

fn main() -> Result<()> {
    let words: Vec<String> = env::args().skip(1).collect();
    let (workers, sessions): (u32, u32) = (words[2].parse().unwrap(), words[3].parse().unwrap());
    let archive = Arc::new(Mutex::new(Archive::open(&words[1])?));
    let listener = TcpListener::bind(&words[0])?;
    let threads: Vec<_> = (0..workers)
        .map(|_| {
            let (listener, archive) = (listener.try_clone().unwrap(), archive.clone());
            thread::spawn(move || {
                let table = table();
                for _ in 0..sessions {
                    let _ = session(listener.accept().unwrap().0, &archive, &table);
                }
            })
        })
        .collect();
    threads.into_iter().for_each(|t| t.join().unwrap());
    println!("archive records {}", archive.lock().unwrap().known.len());
    Ok(())
}

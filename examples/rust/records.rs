//! A file of records, read by stepping from each to the next; one of them is damaged, and the others are still found.
use std::fs;
use std::io;
use strided_layouts::{step, Layout, Refusal};

const FILE_NAME: &str = "records.bin";

/// The records of three layouts, one behind the other.
fn records() -> Result<Vec<u8>, Refusal> {
    let whole = Layout::new(24, 0, &[4, 6], &[1, 4])?;
    let half = Layout::new(24, 0, &[4, 3], &[1, 8])?;
    let turned = Layout::new(24, 0, &[6, 4], &[4, 1])?;
    Ok([whole.write()?, half.write()?, turned.write()?].concat())
}

fn read_back() -> io::Result<()> {
    fs::write(FILE_NAME, records().map_err(io::Error::other)?)?;
    let mut bytes = fs::read(FILE_NAME)?;
    bytes[29 + 3] = 2; // the verdict of the second record, which begins at byte 29, is now Repeated, which is false

    let mut rest = &bytes[..];
    while !rest.is_empty() {
        let behind = step(rest);
        print!("{} bytes at {}:", rest.len() - behind.len(), bytes.len() - rest.len());
        match Layout::read(rest) {
            Ok(layout) => {
                layout.axes().iter().for_each(|axis| print!(" (extent {}, stride {})", axis.extent, axis.stride));
            }
            Err(refusal) => print!(" refused {}", refusal.number()),
        }
        println!();
        rest = behind;
    }
    Ok(())
}

fn main() {
    if let Err(error) = read_back() {
        eprintln!("{error}");
        std::process::exit(1);
    }
}

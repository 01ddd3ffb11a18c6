//! Means over the two faces of an instrument: each point is read in both, in tenths of a millimetre.
use strided_layouts::{Layout, Refusal};

/// A point's second face stands right behind its first.
const READINGS: [i32; 6] = [105, 106, -104, -105, 220, 220];

fn faces() -> Result<(), Refusal> {
    let faces = Layout::new(6, 0, &[2, 3], &[1, 2])?; // the first axis is the face
    let mut means = [0; 3];
    let count = faces.means(0, &READINGS, &mut means)?;
    println!("{count} means in tenths of a millimetre: {}", means.map(|mean| mean.to_string()).join(" "));

    if let Err(refusal) = faces.means(0, &READINGS, &mut means[..2]) {
        println!("2 places: refused {}: {refusal}", refusal.number());
    }
    if let Err(refusal) = faces.means(2, &READINGS, &mut means) {
        println!("axis 2: refused {}: {refusal}", refusal.number());
    }
    Ok(())
}

fn main() {
    if let Err(refusal) = faces() {
        eprintln!("refused {}: {refusal}", refusal.number());
        std::process::exit(1);
    }
}

//! A sheet of six readings: checked in, transposed, judged, and written as a record.
use strided_layouts::{Layout, Refusal, Verdict};

fn sheet() -> Result<(), Refusal> {
    let sheet = Layout::new(6, 0, &[2, 3], &[1, 2])?; // two columns of three
    let turned = sheet.permute(&[1, 0])?;
    let axes = turned.axes();
    println!("transposed: {} by {}, strides {} and {}", axes[0].extent, axes[1].extent, axes[0].stride, axes[1].stride);

    if let Err(refusal) = turned.permute(&[0, 2]) {
        println!("refused {}: {refusal}", refusal.number());
    }
    let (verdict, _) = turned.verdict()?;
    println!("verdict: {}", if verdict == Verdict::Distinct { "distinct" } else { "not distinct" });

    let record = turned.write()?;
    let bytes: String = record.iter().map(|byte| format!(" {byte:02x}")).collect();
    println!("record: {} bytes:{bytes}", record.len());
    Ok(())
}

fn main() {
    if let Err(refusal) = sheet() {
        eprintln!("refused {}: {refusal}", refusal.number());
        std::process::exit(1);
    }
}

//! Checks before a write: readings are written through a layout only if no two positions share a cell.
use strided_layouts::{Layout, Refusal, Verdict};

const READINGS: usize = 24;

/// Numbers the readings of a layout of two axes, row by row, in the order of its second axis.
fn number(layout: &Layout, buffer: &mut [i32]) -> Result<(), Refusal> {
    let [columns, rows] = layout.axes() else { return Ok(()) };
    let mut next = 0;
    for row in 0..rows.extent {
        for column in 0..columns.extent {
            let offset = layout.indexed_offset(&[column, row])?;
            buffer[offset as usize] = next;
            next += 1;
        }
    }
    Ok(())
}

/// Six rows of four, so many readings apart.
fn try_rows(apart: i64) -> Result<(), Refusal> {
    let rows = Layout::new(READINGS as u64, 0, &[4, 6], &[1, apart])?;
    if rows.verdict()?.0 != Verdict::Distinct {
        println!("rows {apart} apart: two positions share a cell, nothing is written");
        return Ok(());
    }
    let mut buffer = [0; READINGS];
    number(&rows, &mut buffer)?;
    println!("rows {apart} apart: {}", buffer.map(|reading| reading.to_string()).join(" "));
    Ok(())
}

fn main() {
    // 4: one row behind the other; 3: a slip, the rows overlap; 5: the last row would end past the buffer
    for apart in [4, 3, 5] {
        if let Err(refusal) = try_rows(apart) {
            println!("rows {apart} apart: refused {}: {refusal}", refusal.number());
        }
    }
}

//! Copies a shot list onto a plan sheet: the same readings, column after column in place of row after row.
use strided_layouts::{copy, Layout, Refusal};

const SHOTS: usize = 6;

/// Two columns of three rows.
fn columns(column: i64, row: i64) -> Result<Layout, Refusal> {
    Layout::new((column + 2 * row + 1) as u64, 0, &[2, 3], &[column, row])
}

/// A plan sheet whose columns are so many readings apart.
fn try_columns(apart: i64) -> Result<[i32; SHOTS], Refusal> {
    let mut sheet = [0; SHOTS];
    copy(&columns(1, 2)?, &[11, 12, 21, 22, 31, 32], &columns(apart, 1)?, &mut sheet)?;
    Ok(sheet)
}

fn main() {
    // 3: one column behind the other; 2: a slip, the columns overlap; 4: the last shot would stand past the sheet
    for apart in [3, 2, 4] {
        match try_columns(apart) {
            Ok(sheet) => println!("columns {apart} apart: {}", sheet.map(|shot| shot.to_string()).join(" ")),
            Err(refusal) => println!("columns {apart} apart: refused {}: {refusal}", refusal.number()),
        }
    }
}

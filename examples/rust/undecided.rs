//! Undecided, and what the normal form does about it: merged axes are fewer, and may be decided.
use strided_layouts::{Layout, Refusal};

fn ask(name: &str, extents: &[u64], strides: &[i64]) -> Result<(), Refusal> {
    let layout = Layout::new(i64::MAX as u64, 0, extents, strides)?;
    let form = layout.normal_form()?;
    let (verdict, of_form) = (layout.verdict()?.0, form.verdict()?.0);
    println!("{name}: {} axes, {verdict}; normal form: {} axes, {of_form}", layout.rank(), form.rank());
    Ok(())
}

fn both() -> Result<(), Refusal> {
    // Axes 0 and 1 go on one where the other ends, and so do axes 2 and 3. The normal form has two axes, and the verdict of
    // two axes is always found. It holds for the layout too: both read the same cells in the same order.
    ask("tiles", &[2000; 4], &[4000003, 8000006000, 4000007, 8000014000])?;
    // Nothing merges here. Whoever gets Undecided does not know whether two positions share a cell, and does not write.
    ask("apart", &[1449; 4], &[10000000000, 10000000001, 10000000002, 10000000003])
}

fn main() {
    if let Err(refusal) = both() {
        eprintln!("refused {}: {refusal}", refusal.number());
        std::process::exit(1);
    }
}

//! Times our library beside strided-rs: `bench`, tab-separated lines on standard output.

mod copying;
mod means;
mod records;
mod timing;
mod verdicts;
mod views;

fn main() {
    println!("case\tours ns\trust ns\tratio");
    verdicts::two_axes();
    verdicts::few_axes();
    verdicts::searches();
    verdicts::growth();
    verdicts::enumerations();
    views::all();
    records::all();
    copying::all();
    means::all();
}

//! Audits three empty texts, and prints the result.
//!
//! rustc crates/export/example.rs -L target/staticlib -l static=export -o target/example-rs && target/example-rs
mod teaselshears;

fn main() {
    // The library that was linked is the one of this module.
    assert_eq!(teaselshears::version(), teaselshears::VERSION);
    let [programs, trace, report] = [b"", b"", b""];
    let mut out = [u64::MAX; 6];
    let written = teaselshears::audit(programs, trace, report, &mut out);
    // The numbers mean something only where all of them were written.
    assert_eq!(written, out.len());
    let [verdict, line, requests, operations, blocks, rest] = out;
    println!("verdict={verdict}\nline={line}\nrequests={requests}");
    println!("operations={operations}\nblocks={blocks}\nrest={rest}");
    std::process::exit(if verdict == 0 { 0 } else { 1 });
}

use mahrullis::{Gate, Limits};

fn main() {
    let mut gate = Gate::new(); // 430 KB of working memory, reused by each call
    match gate.run(b"[CONST fare int 190; ECHO (add fare 65)]", Limits::GREATEST) {
        Ok(report) => println!("{:?}, {} after {} units", report.numbers, report.end, report.units),
        Err(refusal) => println!("{refusal}"),
    }
}

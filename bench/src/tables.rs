//! Tables in Markdown.

pub fn row(cells: &[String]) {
    println!("| {} |", cells.join(" | "));
}

pub fn heading(cells: &[&str]) {
    println!();
    println!("| {} |", cells.join(" | "));
    println!("|{}", "---|".repeat(cells.len()));
}

//! Tables, as docs/BENCHMARKS.md takes them.

pub fn head(columns: &[&str]) {
    let heads: Vec<String> = columns.iter().map(|column| column.to_string()).collect();
    let lines: Vec<String> = columns.iter().map(|_| String::from("---:")).collect();
    row("case", &heads);
    row("---", &lines);
}

pub fn row(name: &str, cells: &[String]) {
    let aligned: Vec<String> = cells.iter().map(|cell| format!("{:>8}", cell)).collect();
    println!("| {:<25} | {} |", name, aligned.join(" | "));
}

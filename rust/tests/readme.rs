//! Holds the README's examples of C and of Rust to those that are compiled and run.

const README: &str = include_str!("../../README.md");

/// The README's block of code in a language.
fn block(language: &str) -> &'static str {
    let (_, rest) = README.split_once(&format!("\n```{language}\n")).expect("a block of code");
    rest.split_once("\n```\n").expect("the end of the block").0
}

#[test]
fn the_c_is_part_of_the_example() {
    assert!(include_str!("../../examples/catalogue.c").contains(block("c")));
}

#[test]
fn the_rust_is_part_of_the_package_s_own_example() {
    let lines = include_str!("../src/lib.rs").lines();
    let page: Vec<&str> = lines.map_while(|line| line.strip_prefix("//!")).collect();
    let example = block("rust").lines().map(|line| format!(" {line}").trim_end().to_owned());
    assert!(page.join("\n").contains(&example.collect::<Vec<_>>().join("\n")));
}

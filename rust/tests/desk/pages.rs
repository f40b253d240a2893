//! The pages' examples, run as they stand.

use crate::transcript::{steps, Session, Step};

/// The steps of each fenced block of a page that is marked `console`.
fn blocks(page: &str) -> Vec<Vec<Step>> {
    let mut blocks = Vec::new();
    let mut lines = (1..).zip(page.lines());
    while lines.any(|(_, line)| line == "```console") {
        blocks.push(steps(lines.by_ref().take_while(|&(_, line)| line != "```")));
    }
    blocks
}

/// Runs all blocks of a page, and fails with every step that prints something else.
fn check_page(name: &str, page: &str) {
    let blocks = blocks(page);
    assert!(!blocks.is_empty(), "{name} has no ```console block");
    let mut session = Session::new();
    let mut wrong = Vec::new();
    for block in blocks {
        assert!(!block.is_empty(), "{name} has a ```console block without a command");
        session.restore_examples();
        wrong.extend(block.iter().filter_map(|step| session.run(name, step)));
    }
    assert!(wrong.is_empty(), "{} examples differ\n\n{}", wrong.len(), wrong.join("\n"));
}

#[test]
fn the_examples_of_docs_desk_md_are_right() {
    check_page("docs/DESK.md", include_str!("../../../docs/DESK.md"));
}

#[test]
fn the_examples_of_docs_solvers_md_are_right() {
    check_page("docs/SOLVERS.md", include_str!("../../../docs/SOLVERS.md"));
}

#[test]
fn the_examples_of_readme_md_are_right() {
    check_page("README.md", include_str!("../../../README.md"));
}

/// The page's exit statuses, options and refusals are tested elsewhere; that none of its
/// verbs is forgotten there is tested here.
#[test]
fn the_page_has_a_section_for_each_verb() {
    let page = include_str!("../../../docs/DESK.md");
    let sections = page.lines().filter_map(|line| line.strip_prefix("## `")?.strip_suffix('`'));
    let verbs = crate::harness::VERBS.map(|(verb, _)| verb);
    assert_eq!(sections.collect::<Vec<_>>(), verbs);
}

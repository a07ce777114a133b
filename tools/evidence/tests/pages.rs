//! What the pages show is what is there.

use reference::replay::replay;
use std::fs;

fn file(name: &str) -> String {
    let path = format!("{}/../../{name}", env!("CARGO_MANIFEST_DIR"));
    fs::read_to_string(&path).unwrap_or_else(|error| panic!("{path}: {error}"))
}

/// The lines of a page from one that begins so to the next that is not indented.
fn shown(page: &str, begin: &str) -> String {
    let from = page.lines().skip_while(|line| !line.starts_with(begin));
    from.take_while(|line| line.starts_with("    ")).map(|line| format!("{}\n", &line[4..])).collect()
}

#[test]
fn the_readme_shows_the_example() {
    let lines = shown(&file("README.md"), "    let times");
    assert!(lines.lines().count() > 10);
    let indented: String = lines.lines().map(|line| format!("    {line}\n")).collect();
    assert!(file("crates/example/src/main.rt").contains(&indented), "{indented}");
}

#[test]
fn the_scenario_of_the_page_gives_what_it_shows() {
    let page = file("docs/REPLAY.md");
    let command = shown(&page, "    printf '%s");
    let scenario: String = command.split('\'').skip(3).step_by(2).map(|line| format!("{line}\n")).collect();
    assert!(scenario.contains("\nbytes "));
    assert_eq!(String::from_utf8_lossy(&replay(scenario.as_bytes()).out), shown(&page, "    ack "));
}

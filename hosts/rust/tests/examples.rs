//! Every public name of the wrapper is used in an example of its documentation, which cargo test runs; the lines of docs/GUIDE.md are an example's.
use std::path::Path;

// Lines of doctests, without their comment signs, and all other lines.
fn parts(text: &str) -> (Vec<&str>, Vec<&str>) {
    let mut fenced = false;
    let (mut examples, mut code) = (Vec::new(), Vec::new());
    for line in text.lines().map(str::trim) {
        match line.strip_prefix("///").or_else(|| line.strip_prefix("//!")).map(str::trim) {
            Some("```") => fenced = !fenced,
            Some(example) if fenced => examples.push(example),
            Some(_) => (),
            None => code.push(line),
        }
    }
    (examples, code)
}

// The name behind `pub fn` and the like.
fn public(line: &str) -> Option<&str> {
    let rest = ["pub fn ", "pub struct ", "pub enum ", "pub const "].iter().find_map(|p| line.strip_prefix(p))?;
    rest.split(|c: char| !c.is_alphanumeric() && c != '_').next()
}

fn words(line: &str) -> impl Iterator<Item = &str> {
    line.split(|c: char| !c.is_alphanumeric() && c != '_')
}

#[test]
fn every_public_name_is_in_an_example() {
    let folder = Path::new(env!("CARGO_MANIFEST_DIR")).join("src");
    let paths = std::fs::read_dir(folder).unwrap().map(|entry| entry.unwrap().path());
    let texts: Vec<String> = paths.map(|path| std::fs::read_to_string(path).unwrap()).collect();
    let examples: Vec<&str> = texts.iter().flat_map(|text| parts(text).0).collect();
    // sys.rs: what leaves Rust, of which the two grids alone are public
    let wrapper = texts.iter().filter(|text| !text.contains("extern \"C\""));
    let names: Vec<&str> = wrapper.flat_map(|text| parts(text).1).filter_map(public).chain(["Grid", "AtomGrid"]).collect();
    let missing: Vec<&&str> = names.iter().filter(|name| !examples.iter().any(|line| words(line).any(|word| word == **name))).collect();
    assert!(names.len() > 80 && examples.len() > 200, "{} names, {} lines", names.len(), examples.len());
    assert!(missing.is_empty(), "in no example: {missing:?}");
}

#[test]
fn the_guides_lines_are_the_examples() {
    let page = include_str!("../../../docs/GUIDE.md");
    let section = page.split("\n## From Rust\n").nth(1).and_then(|rest| rest.split("\n## ").next()).expect("the section");
    let lines: Vec<&str> = section.lines().filter(|line| line.starts_with("    ")).collect();
    assert!(lines.len() == 11 && include_str!("../examples/job.rs").contains(&lines.join("\n")), "{lines:#?}");
}

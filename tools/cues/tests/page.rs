//! The page: opened in a browser, what is drawn, what a click and the keys choose, what the panel says; and without one.
//! The page is that of the panel case with nothing true at the start (answer `R,13,14,2`).

mod browser;

use browser::{Outcome, Page};
use std::fs;
use std::path::{Path, PathBuf};
use std::process::Command;

/// The texts of all elements that a selector finds, by " | ".
fn texts(page: &mut Page, selector: &str) -> Outcome<String> {
    page.eval(&format!("[...document.querySelectorAll(`{selector}`)].map((e) => e.innerText.trim()).join(' | ')"))
}

fn count(page: &mut Page, selector: &str) -> Outcome<String> {
    page.eval(&format!("String(document.querySelectorAll(`{selector}`).length)"))
}

/// The key of what is chosen, and the key of the bar or column that has the focus.
fn chosen(page: &mut Page) -> Outcome<String> {
    page.eval("document.getElementById('panel').dataset.chosen")
}

fn focused(page: &mut Page) -> Outcome<String> {
    page.eval(
        "(() => { const e = document.activeElement, d = e.dataset; \
         return d.node ? `node-${d.node}` : d.cue ? `cue-${d.cue}` : d.gap ? `gap-${d.gap}` : e.id; })()",
    )
}

fn drawn(page: &mut Page) -> Outcome<()> {
    assert_eq!(texts(page, "#verdict-text")?, "Refused: a condition between is broken");
    assert_eq!(texts(page, "#answer")?, "R,13,14,2");
    assert_eq!(count(page, "#columns .column.cue")?, "2");
    assert_eq!(count(page, "#columns .column.gap")?, "3");
    assert_eq!(count(page, "#bars .bar")?, "4");
    assert_eq!(count(page, "#bars .bar.empty")?, "1");
    assert_eq!(count(page, "#bars .bar.leaf")?, "2");
    Ok(())
}

/// The refused spot is chosen at the start, has its flag, and its constraint is marked in the panel.
fn spot_marked(page: &mut Page) -> Outcome<()> {
    assert_eq!(chosen(page)?, "node-0");
    assert_eq!(count(page, "#bars .bar.spot[data-node='0']")?, "1");
    assert!(texts(page, "#bars .flag")?.contains("refused here"));
    assert_eq!(count(page, "tr.constraint")?, "3");
    assert!(texts(page, "tr.constraint[data-constraint='0'][data-kept='holds']")?.contains("holds"));
    let refused = texts(page, "tr.constraint.spot[data-constraint='2'][data-kept='broken']")?;
    assert!(refused.contains("broken first in state 0") && refused.contains("refused here"), "{refused}");
    Ok(())
}

fn chosen_by_click(page: &mut Page) -> Outcome<()> {
    page.click("#bars .bar[data-node='1']")?;
    assert_eq!((chosen(page)?, focused(page)?), ("node-1".into(), "node-1".into()));
    assert_eq!(texts(page, "#panel-title")?, "empty in-km/h by as-is");
    assert!(texts(page, "tr.constraint")?.contains("broken first in state 0"));
    assert_eq!(page.eval("location.hash")?, "#node-1");
    page.click("#columns .column[data-cue='2']")?;
    assert_eq!(chosen(page)?, "cue-2");
    assert!(texts(page, "#panel-body")?.contains("applies"));
    page.click("#columns .column[data-gap='1']")?;
    assert_eq!(texts(page, "#panel-title")?, "Gap 1");
    Ok(())
}

/// Each key and what has the focus after it, from the bar of node 0.
const WALK: [(&str, &str); 9] = [
    ("ArrowDown", "node-1"),
    ("ArrowRight", "node-2"),
    ("End", "node-3"),
    ("ArrowRight", "node-3"),
    ("ArrowLeft", "node-2"),
    ("+", "node-2"),
    ("Home", "node-1"),
    ("ArrowUp", "node-0"),
    ("Enter", "panel-title"),
];

fn chosen_by_keys(page: &mut Page) -> Outcome<()> {
    page.click("#bars .bar[data-node='0']")?;
    for (key, wanted) in WALK {
        page.key(key)?;
        assert_eq!(focused(page)?, wanted, "after {key}");
    }
    page.click("#columns .column[data-gap='0']")?;
    for (key, wanted) in [("ArrowRight", "cue-1"), ("End", "gap-2"), ("ArrowLeft", "cue-2"), ("ArrowDown", "node-3")] {
        page.key(key)?;
        assert_eq!(focused(page)?, wanted, "after {key}");
    }
    page.key("Tab")?;
    assert_eq!(focused(page)?, "panel", "after Tab");
    Ok(())
}

fn all(program: &Path, file: &Path) -> Outcome<()> {
    let mut page = Page::open(program, file, "")?;
    drawn(&mut page)?;
    spot_marked(&mut page)?;
    chosen_by_click(&mut page)?;
    chosen_by_keys(&mut page)?;
    drop(page);
    let mut page = Page::open(program, file, "#gap-2")?;
    assert_eq!(chosen(&mut page)?, "gap-2");
    Ok(())
}

#[test]
fn the_page_in_a_browser() {
    let Some(program) = browser::program() else {
        println!("no Chromium: page not opened");
        return;
    };
    let file = std::env::temp_dir().join(format!("cues-page-{}.html", std::process::id()));
    fs::write(&file, page_of("examples/refused.case")).expect("a page");
    let outcome = all(&program, &file);
    let _ = fs::remove_file(&file);
    if let Err(fault) = outcome {
        panic!("{fault}");
    }
}

// ---------------------------------------------------------------- without a browser

fn top() -> PathBuf {
    Path::new(env!("CARGO_MANIFEST_DIR")).join("../..")
}

/// The page of a case with the panel's names, by the program.
fn page_of(case: &str) -> Vec<u8> {
    let (case, names) = (top().join(case), top().join("examples/panel.names"));
    let output = Command::new(env!("CARGO_BIN_EXE_cues")).arg("view").arg(case).arg("--names").arg(names).output();
    output.expect("cues runs").stdout
}

/// Nothing is fetched: no address but that of a drawing's names, no file beside.
#[test]
fn the_page_needs_nothing_else() {
    let page = String::from_utf8(page_of("examples/refused.case")).expect("text");
    for fetched in ["http:", "https:", " src=", "url(", "@import", "<link", "<img", "fetch(", "XMLHttpRequest", "import("] {
        assert!(!page.contains(fetched), "{fetched}");
    }
    assert!(page.contains("\"answer\":\"R,13,14,2\"") && page.contains("\"tasks\":[\"convert\",\"load\",\"take\","), "{page}");
}

/// Every stored case has a page with its answer, whatever is wrong with it, and no data ends the script that it stands in.
#[test]
fn a_page_for_every_stored_case() {
    let ends = page_of("examples/refused.case").windows(8).filter(|bytes| bytes == b"</script").count();
    let answers = fs::read_to_string(top().join("crates/vectors/stdout")).expect("stored answers");
    for (name, answer) in answers.lines().filter_map(|line| line.split_once(' ')) {
        let text = fs::read(top().join("crates/vectors/data").join(name)).expect("a stored case");
        let (page, accepted) = cues::view::drawn("</script><b>", &text, None).expect("a page");
        assert!(page.contains(&format!("\"answer\":\"{answer}\"")), "{name}");
        assert_eq!(accepted, answer.starts_with('Y'), "{name}");
        assert_eq!(page.matches("</script").count(), ends, "{name}");
    }
}

//! The stack that the calls touch, in bytes: a thread's stack is painted below the call, and what is no longer paint is counted.
//!
//! RUSTFLAGS="-L native=target/staticlib" cargo run --release --offline --features linked --bin stack

use cuecheck::{Node, NODES, STATES, WORK};
use harness::gen::forms::{self, Texts};
use harness::lists::MADE;

const PAINTED: usize = 1 << 20;
const PAINT: u8 = 0xA5;

/// What is left unpainted below the frame, and counted as touched.
const GAP: usize = 512;

/// A tree of so many levels, each task but the last with 32 subtasks: 31 empty ones and the next level, first or last. Their method has so many
/// constraints, out of order.
fn levels(count: usize, deep_last: bool, constraints: usize) -> String {
    let others = ",1".repeat(31);
    let subtasks = if deep_last { format!("{others},0") } else { format!(",0{others}") };
    let empties = "E,1,0\n".repeat(31);
    let mut nodes = "E,2,0\n".to_string();
    for _ in 1..count {
        nodes = if deep_last { format!("D,0\n{empties}{nodes}") } else { format!("D,0\n{nodes}{empties}") };
    }
    let n = nodes.lines().count();
    let lines: String = (0..constraints).rev().map(|p| format!("b,{p},0\n")).collect();
    format!("N,{constraints},0,2,3,0,0,{n}\nI,0\nM,0,32{subtasks},{constraints}\n{lines}M,1,0,0\nM,0,0,0\nP\n{nodes}")
}

/// As many choices of gaps as there may be with one cue: 19 empty tasks at the end of as many chains down to level 64, with 64 constraints on each
/// node. The first of them needs gap 1.
fn nineteen() -> String {
    let lines = |constraints: usize| (0..constraints).map(|p| format!("b,{p},0\n")).collect::<String>();
    let chain = format!("{}E,2,0\n", "D,1\n".repeat(62));
    let (goal, link, end) = (format!("M,1,20{},0,1\nO,19,0\n", ",2".repeat(19)), "M,2,1,2,64\n", "M,2,0,64\n");
    let nodes = format!("D,0\n{}L,0,1\n", chain.repeat(19));
    let n = nodes.lines().count();
    format!("N,64,1,2,3,1,1,{n}\nI,0\nA,0,0,0,0\n{goal}{link}{0}{end}{0}P,0\n{nodes}", lines(64))
}

/// Paints the stack below this frame, calls, and counts from the lowest byte that lost its paint.
#[inline(never)]
fn touched(call: &mut dyn FnMut()) -> usize {
    let mut mark = 0u8;
    let top = &raw mut mark as usize - GAP;
    let low = top - PAINTED;
    // SAFETY: the thread's stack is larger than what is painted, and nothing lives below this frame.
    unsafe { (low..top).for_each(|at| (at as *mut u8).write_volatile(PAINT)) };
    call();
    // SAFETY: as above.
    let kept = (low..top).take_while(|at| unsafe { (*at as *const u8).read_volatile() } == PAINT).count();
    PAINTED - kept + GAP
}

fn measured(text: String) -> (u32, [usize; 4]) {
    let run = move || {
        let (mut states, mut nodes, mut work) = (vec![0; STATES], vec![Node::default(); NODES], vec![0; WORK]);
        let mut number = 0;
        let check =
            touched(&mut || number = cuecheck::check(text.as_bytes(), &mut states, &mut nodes, &mut work).number);
        let replay = touched(&mut || _ = cuecheck::replay(text.as_bytes(), &mut states, &mut work));
        let mut output = vec![0; text.len()];
        let write =
            touched(&mut || _ = cuecheck::write(text.as_bytes(), &mut states, &mut nodes, &mut work, &mut output));
        let gaps = touched(&mut || _ = cuecheck::find_gaps(text.as_bytes(), &mut states, &mut nodes, &mut work));
        (number, [check, replay, write, gaps])
    };
    on_thread(run)
}

/// The same of the import call.
fn measured_import(texts: Texts) -> (u32, usize) {
    let Texts { case, names, form } = texts;
    let run = move || {
        let (mut states, mut nodes, mut work) = (vec![0; STATES], vec![Node::default(); NODES], vec![0; WORK]);
        let (mut output, mut number) = (vec![0; MADE], 0);
        let import = touched(&mut || {
            let imported = cuecheck::import(&case, &names, &form, &mut states, &mut nodes, &mut work, &mut output);
            number = imported.number;
        });
        (number, import)
    };
    on_thread(run)
}

fn on_thread<T: Send + 'static>(run: impl FnOnce() -> T + Send + 'static) -> T {
    std::thread::Builder::new().stack_size(8 * PAINTED).spawn(run).expect("a thread").join().expect("a measure")
}

fn main() {
    println!("{:<34}{:>8}{:>10}{:>10}{:>10}{:>10}", "case", "answer", "check", "replay", "write", "gaps");
    let cases = [
        ("64 levels, the deep one first", levels(64, false, 0)),
        ("64 levels, the deep one last", levels(64, true, 0)),
        ("64 levels, 64 constraints", levels(64, true, 64)),
        ("65 levels, the deep one last", levels(65, true, 0)),
        ("2 levels", levels(2, true, 0)),
        ("a cue, 19 empty tasks on level 64", nineteen()),
    ];
    for (name, text) in cases {
        let (number, [check, replay, write, gaps]) = measured(text);
        println!("{name:<34}{number:>8}{check:>10}{replay:>10}{write:>10}{gaps:>10}");
    }
    println!("\n{:<34}{:>8}{:>10}", "form", "answer", "import");
    for (name, texts) in forms::all() {
        let (number, import) = measured_import(texts);
        println!("{name:<34}{number:>8}{import:>10}");
    }
}

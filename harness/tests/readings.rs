//! The panel cases of document 01 and the settled readings, of Cards 1, 3, 5 and 7 of document 02 too, each as a text and its answer, or as a step.

use harness::lists::{Dirt, Lengths, Lists, OUTPUT};
use harness::plain::{check, replay, step, Found, Node, Reply, Stepped, Written};
use harness::{fast, plain};

const CASE_A: &str = "N,3,3,2,3,3,2,4\nI,1,0\nA,0,1,0,1,0,0\nA,0,0,1,1,0\nA,1,1,0,1,2,1,1\nM,3,3,4,1,2,3\nO,0,2\n\
    O,1,2\nW,1,0,4\nM,4,1,0,0\nM,4,0,1\nB,0,0\nP,1,2\nD,0\nE,2,0\nL,1,1\nL,2,2\n";

fn printed(answer: Reply) -> String {
    match answer {
        Reply { number: 0, line: 0, item: 0, cues, nodes } => format!("Y,{cues},{nodes}"),
        Reply { number, line, item, cues: 0, nodes: 0 } => format!("R,{number},{line},{item}"),
        odd => format!("{odd:?}"),
    }
}

fn checked(text: &[u8]) -> String {
    let mut lists = Lists::default();
    lists.soil(Dirt::Counting);
    let (states, nodes, work) = lists.lend(Lengths::EXACT);
    let answer = check(text, states, nodes, work);
    assert_eq!(answer, fast::check(text, states, nodes, work));
    printed(answer)
}

/// Case a with some lines replaced, counted from 1; an empty replacement drops the line.
fn case_a(changes: &[(usize, &str)]) -> String {
    let lines = CASE_A
        .lines()
        .enumerate()
        .map(|(i, line)| changes.iter().find(|(number, _)| *number == i + 1).map_or(line, |(_, changed)| changed));
    lines.filter(|line| !line.is_empty()).map(|line| format!("{line}\n")).collect()
}

#[track_caller]
fn expect(changes: &[(usize, &str)], answer: &str) {
    assert_eq!(checked(case_a(changes).as_bytes()), answer);
}

#[test]
fn panel_cases() {
    let i = [(1, "N,3,3,2,3,4,0,1"), (13, "P"), (14, "E,2,0"), (15, ""), (16, ""), (17, "")];
    expect(&[], "Y,2,4");
    expect(&[(15, "E,2,1")], "Y,2,4");
    expect(&[(15, "E,2,2")], "R,10,14,0");
    expect(&[(2, "I,0")], "R,13,14,2");
    expect(&[(13, "P,2,1")], "R,5,13,1");
    expect(&[(17, "L,2,1")], "R,8,17,1");
    expect(&[(1, "N,3,3,2,3,3,2,3"), (17, "")], "R,22,17,0");
    expect(&[(15, "E,2,3")], "R,4,15,3");
    expect(&i, "Y,0,1");
    expect(&[&i[..], &[(2, "I,0")]].concat(), "R,11,14,0");
}

#[test]
fn spans_of_case_a() {
    let mut lists = Lists::default();
    lists.soil(Dirt::Same(u32::MAX));
    let (states, nodes, work) = lists.lend(Lengths::EXACT);
    check(CASE_A.as_bytes(), states, nodes, work);
    let records: Vec<[u32; 5]> = nodes[..5].iter().map(|n| [n.letter, n.label, n.place, n.start, n.end]).collect();
    assert_eq!(records, [[1, 0, 0, 1, 4], [2, 2, 0, 1, 1], [3, 1, 1, 2, 2], [3, 2, 2, 4, 4], [0; 5]]);
    let (rows, _) = states.as_chunks::<8>();
    assert_eq!(rows[..3], [word(0, 1), word(0, 3), word(0, 5)]);
    assert!(states[24..].iter().all(|&word| word == 0) && work.iter().all(|&number| number == 0));
}

/// A set with members in one word.
fn word(number: usize, bits: u64) -> [u64; 8] {
    let mut set = [0; 8];
    set[number] = bits;
    set
}

/// The state list of a text that both renderings accept.
#[track_caller]
fn states_of(text: &str) -> Vec<u64> {
    let mut lists = [Lists::default(), Lists::default()];
    let calls = [check, fast::check];
    for (lists, call) in lists.iter_mut().zip(calls) {
        lists.soil(Dirt::Counting);
        let (states, nodes, work) = lists.lend(Lengths::EXACT);
        assert_eq!(call(text.as_bytes(), states, nodes, work).number, 0);
    }
    assert_eq!(lists[0].first_difference(&lists[1]), None);
    lists[0].lend(Lengths::EXACT).0.to_vec()
}

/// Case a with so many propositions, and other lines replaced.
#[track_caller]
fn expect_of(propositions: u32, changes: &[(usize, &str)], answer: &str) {
    let header = format!("N,{propositions},3,2,3,3,2,4");
    expect(&[&[(1, &header[..])], changes].concat(), answer);
}

#[test]
fn propositions() {
    for propositions in [3, 4, 63, 64, 65, 255, 256, 257, 511, 512] {
        let last = propositions - 1;
        expect_of(propositions, &[], "Y,2,4");
        expect_of(propositions, &[(2, &format!("I,2,0,{last}")), (12, &format!("B,{last},0"))], "Y,2,4");
        // Sets, their members and conditions go by the model's own count.
        expect_of(propositions, &[(2, &format!("I,2,0,{propositions}"))], "R,4,2,4");
        expect_of(propositions, &[(2, &format!("I,{},0", propositions + 1))], "R,4,2,2");
        expect_of(propositions, &[(3, &format!("A,0,1,{propositions},0,0"))], "R,4,3,4");
        for letter in ["B", "b", "F", "f"] {
            expect_of(propositions, &[(8, &format!("{letter},{propositions},2"))], "R,4,8,2");
        }
        for letter in ["W", "w"] {
            expect_of(propositions, &[(8, &format!("{letter},1,{propositions},4"))], "R,4,8,3");
        }
    }
    expect_of(513, &[], "R,4,1,2");
    expect_of(4_294_967_295, &[], "R,4,1,2");
}

#[test]
fn eight_words() {
    for p in [0, 63, 64, 255, 256, 257, 319, 320, 447, 448, 511] {
        let text =
            case_a(&[(1, "N,512,3,2,3,3,2,4"), (2, &format!("I,1,{p}")), (9, &format!("W,1,{p},4")), (12, "b,3,0")]);
        let states = states_of(&text);
        let mut start = word(p / 64, 1 << (p % 64));
        assert_eq!(states[..8], start, "{p}");
        start[0] |= 2;
        assert_eq!(states[8..16], start, "{p}");
        assert!(states[24..].iter().all(|&word| word == 0));
    }
    let all: String = (0..512).map(|p| format!(",{p}")).collect();
    let text = format!("N,512,1,1,1,1,1,2\nI,512{all}\nA,512{all},0,512{all},512{all}\nM,1,1,0,0\nP,0\nD,0\nL,0,1\n");
    let states = states_of(&text);
    assert!(states[..16].iter().all(|&word| word == u64::MAX) && states[16..].iter().all(|&word| word == 0));
}

#[test]
fn lines() {
    assert_eq!(checked(b""), "R,3,1,0");
    assert_eq!(checked(b"\n"), "R,3,1,1");
    assert_eq!(checked(b"N,513,x"), "R,3,1,0");
    assert_eq!(checked(b"N,513,x\n"), "R,4,1,2");
    assert_eq!(checked(b"N,513x\n"), "R,3,1,2");
    assert_eq!(checked(b"N,512,x\n"), "R,3,1,3");
    assert_eq!(checked(b"N\n"), "R,3,1,2");
    assert_eq!(checked(b"n,1\n"), "R,3,1,1");
    assert_eq!(checked(b"NN,1\n"), "R,3,1,1");
    let without_feed = CASE_A.trim_end();
    assert_eq!(checked(without_feed.as_bytes()), "R,3,17,0");
    for surplus in ["\n", "x", "L,0,1\n", "\0"] {
        assert_eq!(checked(format!("{CASE_A}{surplus}").as_bytes()), "R,3,18,1");
    }
    // A surplus line comes before running, and after every fault of the last due line.
    assert_eq!(checked(format!("{}\n", case_a(&[(13, "P,2,1")])).as_bytes()), "R,3,18,1");
    assert_eq!(checked(format!("{}x", case_a(&[(17, "L,2,3")])).as_bytes()), "R,4,17,3");
    expect(&[(7, "I,0")], "R,3,7,1");
    expect(&[(15, "O,0,1")], "R,3,15,1");
}

#[test]
fn fields() {
    expect(&[(13, "P,1,2,")], "R,3,13,4");
    expect(&[(13, "P,1")], "R,3,13,3");
    expect(&[(13, "P,1,02")], "R,3,13,3");
    expect(&[(13, "P,1,4294967295")], "R,4,13,3");
    expect(&[(13, "P,1,4294967296")], "R,3,13,3");
    expect(&[(13, "P,1,2\r")], "R,3,13,3");
    expect(&[(2, "I,4,x")], "R,4,2,2");
    expect(&[(2, "I,3,0,1,2")], "Y,2,4");
    expect(&[(2, "I,2,1,1")], "R,4,2,4");
    expect(&[(2, "I,2,1")], "R,3,2,4");
    expect(&[(7, "O,3,3")], "R,4,7,2");
    expect(&[(7, "O,2,2")], "R,4,7,3");
    expect(&[(9, "W,8,0,4")], "R,4,9,2");
    expect(&[(9, "W,1,3,4")], "R,4,9,3");
    expect(&[(12, "B,0,1")], "R,4,12,3");
    // No compound task: the goal is out of range, after the method count.
    expect(&[(1, "N,3,3,0,3,3,2,4")], "R,4,1,6");
    expect(&[(1, "N,3,3,0,2049,3,2,4")], "R,4,1,5");
    let without_cues = [(1, "N,3,3,2,3,4,0,1"), (14, "E,2,0"), (15, ""), (16, ""), (17, "")];
    let plan = |line| [&without_cues[..], &[(13, line)]].concat();
    expect(&plan("P,"), "R,3,13,2");
    expect(&plan("P,0"), "R,3,13,2");
    let leaf = [(1, "N,3,3,2,3,4,0,1"), (13, "P"), (14, "L,0,0"), (15, ""), (16, ""), (17, "")];
    expect(&leaf, "R,4,14,3");
}

/// Loaded (1) is true in state 1 alone, on air (2) in state 2; in km/h (0) in all three.
#[test]
fn conditions_that_something_is_not_so() {
    expect(&[(8, "b,1,2")], "Y,2,4");
    expect(&[(8, "b,1,4")], "R,11,14,1");
    expect(&[(8, "f,1,4")], "Y,2,4");
    expect(&[(8, "f,1,2")], "R,12,14,1");
    expect(&[(8, "w,1,2,4")], "Y,2,4");
    // Of states 0 and 1 only one is as asked, whatever the sign.
    expect(&[(8, "w,1,1,4")], "R,13,14,1");
    expect(&[(8, "W,1,1,4")], "R,13,14,1");
    // Nor is any state asked from the take to the task ahead of it.
    expect(&[(8, "w,4,0,1")], "Y,2,4");
    expect(&[(8, "W,4,2,1")], "Y,2,4");
    // The whole task, and an empty one in its gap.
    expect(&[(8, "b,2,0")], "Y,2,4");
    expect(&[(8, "f,2,0")], "R,12,14,1");
    expect(&[(12, "b,0,0")], "R,11,15,0");
    expect(&[(12, "w,0,1,0")], "Y,2,4");
    expect(&[(12, "w,0,0,0")], "R,13,15,0");
    // The same proposition and set with either sign: one of them is broken.
    expect(&[(7, "B,1,2"), (8, "b,1,2")], "R,11,14,0");
    expect(&[(7, "b,1,2"), (8, "B,1,2")], "R,11,14,1");
}

#[test]
fn small_letters() {
    expect(&[(8, "b,3,2")], "R,4,8,2");
    expect(&[(8, "f,0,8")], "R,4,8,3");
    expect(&[(8, "w,8,3,4")], "R,4,8,2");
    expect(&[(8, "w,1,3,8")], "R,4,8,3");
    expect(&[(8, "w,1,0,8")], "R,4,8,4");
    expect(&[(8, "b,1")], "R,3,8,3");
    expect(&[(8, "w,1,0")], "R,3,8,4");
    expect(&[(8, "f,1,4,")], "R,3,8,4");
    for (i, line) in CASE_A.lines().enumerate() {
        let small = line.to_ascii_lowercase();
        if !small.starts_with(['b', 'w']) {
            expect(&[(i + 1, &small)], &format!("R,3,{},1", i + 1));
        }
    }
    for line in [13, 14, 15, 16] {
        for small in ["b,1,2", "f,1,1", "w,1,0,4"] {
            expect(&[(line, small)], &format!("R,3,{line},1"));
        }
    }
}

#[test]
fn lists_are_tested_before_the_text() {
    let long = vec![b'x'; 65_536];
    let mut lists = Lists::default();
    let mut answer = |text: &[u8], states, nodes, work| {
        let (states, nodes, work) = lists.lend(Lengths { states, nodes, work });
        let (checked, replayed) = (check(text, states, nodes, work), replay(text, states, work));
        assert_eq!(checked, fast::check(text, states, nodes, work));
        assert_eq!(replayed, fast::replay(text, states, work));
        (printed(checked), printed(replayed))
    };
    let both = |check: &str, replay: &str| (check.to_string(), replay.to_string());
    // A state list is as long for a plan without cues.
    let without_cues = b"N,0,0,1,1,0,0,1\nI,0\nM,0,0,0\nP\nE,0,0\n";
    for states in [0, 4_003, 4_004, 4_005, 8_007] {
        for text in [&long[..], without_cues, CASE_A.as_bytes()] {
            assert_eq!(answer(text, states, 2_999, 16_383), both("R,1,0,1", "R,1,0,1"));
        }
    }
    assert_eq!(answer(without_cues, 8_008, 3_000, 16_384), both("Y,0,1", "Y,0,1"));
    assert_eq!(answer(&long, 8_008, 2_999, 16_383), both("R,1,0,2", "R,1,0,3"));
    assert_eq!(answer(&long, 8_008, 2_999, 16_384), both("R,1,0,2", "R,2,0,0"));
    assert_eq!(answer(&long, 8_008, 3_000, 0), both("R,1,0,3", "R,1,0,3"));
    assert_eq!(answer(&long, 8_008, 3_000, 16_384), both("R,2,0,0", "R,2,0,0"));
    assert_eq!(answer(&long[..65_535], 8_008, 3_000, 16_384), both("R,3,1,0", "R,3,1,0"));
}

#[test]
fn replay_reads_the_tree_but_does_not_walk_it() {
    let mut lists = Lists::default();
    let (states, _, work) = lists.lend(Lengths::EXACT);
    for (node, line) in [(17, "L,2,1"), (15, "D,2"), (15, "E,1,0"), (14, "D,2"), (16, "D,0")] {
        assert_eq!(printed(replay(case_a(&[(node, line)]).as_bytes(), states, work)), "Y,2,4");
    }
    assert_eq!(printed(replay(with_nodes(&["D,0", "L,1,1", "L,2,2"]).as_bytes(), states, work)), "Y,2,3");
    assert_eq!(printed(replay(with_nodes(&["E,2,0"; 7]).as_bytes(), states, work)), "Y,2,7");
    assert_eq!(printed(replay(case_a(&[(17, "L,2,3")]).as_bytes(), states, work)), "R,4,17,3");
    assert_eq!(printed(replay(case_a(&[(13, "P,2,1")]).as_bytes(), states, work)), "R,5,13,1");
}

// ---------------------------------------------------------------- a bad tree

type WriteCall = fn(&[u8], &mut [u64], &mut [Node], &mut [u32], &mut [u8]) -> Written;
type FindCall = fn(&[u8], &mut [u64], &mut [Node], &mut [u32]) -> Found;
const WRITE: [WriteCall; 2] = [plain::write, fast::write];
const FIND: [FindCall; 2] = [plain::find_gaps, fast::find_gaps];

/// The check call refuses a text so, and the write call and the one that finds the gaps do the same walk.
#[track_caller]
fn refused(text: &str, answer: &str) {
    assert_eq!(checked(text.as_bytes()), answer, "{text}");
    let mut lists = Lists::with_output();
    for (write, find) in WRITE.into_iter().zip(FIND) {
        lists.soil(Dirt::Counting);
        let (states, nodes, work, output) = lists.lend_all(Lengths::EXACT, OUTPUT);
        let Written { number, line, item, cues, nodes: count, length } =
            write(text.as_bytes(), states, nodes, work, output);
        assert_eq!(printed(Reply { number, line, item, cues, nodes: count }), answer, "{text}");
        assert!(length == 0 && output.iter().all(|&byte| byte == 0));
        assert!(states.iter().all(|&word| word == 0) && nodes.iter().all(|&node| node == Node::default()));
        lists.soil(Dirt::Counting);
        let (states, nodes, work) = lists.lend(Lengths::EXACT);
        let Found { number, line, item, cues, nodes: count, tried } = find(text.as_bytes(), states, nodes, work);
        assert_eq!(printed(Reply { number, line, item, cues, nodes: count }), answer, "{text}");
        assert!(tried == 0 && states.iter().all(|&word| word == 0));
        assert!(nodes.iter().all(|&node| node == Node::default()) && work.iter().all(|&number| number == 0));
    }
}

/// Case a with these node lines, from line 14 on.
fn with_nodes(lines: &[&str]) -> String {
    let header = format!("N,3,3,2,3,3,2,{}", lines.len());
    let model = case_a(&[(1, &header), (14, ""), (15, ""), (16, ""), (17, "")]);
    model + &lines.iter().map(|line| format!("{line}\n")).collect::<String>()
}

/// The lines of case a's tree, and these behind it.
fn followed_by<'a>(lines: &[&'a str]) -> Vec<&'a str> {
    [&["D,0", "E,2,0", "L,1,1", "L,2,2"], lines].concat()
}

/// An L line's own task is its action: a leaf for a compound task, or of another action.
#[test]
fn a_leaf_of_another_task() {
    for line in ["L,0,1", "L,1,1", "L,2,2"] {
        refused(&case_a(&[(14, line)]), "R,6,14,0");
        refused(&case_a(&[(15, line)]), "R,6,15,0");
    }
    // Also where the position is its own, and was claimed by no other leaf.
    refused(&case_a(&[(16, "L,2,2")]), "R,6,16,0");
    refused(&case_a(&[(16, "L,0,1")]), "R,6,16,0");
    refused(&case_a(&[(17, "L,1,1")]), "R,6,17,0");
}

/// A D or E line's own task is its method's task: any D or E for an action, or of another compound task. Whether the method is
/// empty doesn't matter: 6 is tried ahead of 20.
#[test]
fn a_method_of_another_task() {
    for line in ["D,0", "D,1", "D,2", "E,0,0", "E,1,0", "E,2,0"] {
        refused(&case_a(&[(16, line)]), "R,6,16,0");
        refused(&case_a(&[(17, line)]), "R,6,17,0");
    }
    for line in ["D,1", "D,2", "E,1,0", "E,2,0"] {
        refused(&case_a(&[(14, line)]), "R,6,14,0");
    }
    for line in ["D,0", "E,0,0", "E,0,2"] {
        refused(&case_a(&[(15, line)]), "R,6,15,0");
    }
}

#[test]
fn a_letter_that_is_not_the_methods() {
    refused(&case_a(&[(15, "D,2")]), "R,20,15,0");
    for line in ["E,1,0", "E,1,1", "E,1,2"] {
        refused(&case_a(&[(15, line)]), "R,20,15,0");
    }
    // Whatever follows it, and if nothing does.
    refused(&case_a(&[(14, "E,0,0")]), "R,20,14,0");
    refused(&with_nodes(&["E,0,0"]), "R,20,14,0");
    refused(&with_nodes(&["D,0", "E,1,0", "L,0,1", "L,1,1", "L,2,2"]), "R,20,15,0");
    refused(&with_nodes(&["D,0", "D,2"]), "R,20,15,0");
    // An empty method of the goal, on the root's line.
    let more = [(1, "N,3,3,2,4,3,2,4"), (12, "B,0,0\nM,3,0,0")];
    refused(&case_a(&[&more[..], &[(14, "D,3")]].concat()), "R,20,15,0");
    // The first such line is named.
    refused(&with_nodes(&["D,0", "E,1,0", "D,2", "E,0,0"]), "R,20,15,0");
}

/// The first line after the whole tree, whatever it holds.
#[test]
fn a_surplus_node() {
    for line in ["L,0,1", "L,1,1", "L,2,2", "D,0", "D,1", "D,2", "E,0,0", "E,1,1", "E,2,0", "E,2,2"] {
        refused(&with_nodes(&followed_by(&[line])), "R,21,18,0");
        refused(&with_nodes(&followed_by(&[line, "D,2", line])), "R,21,18,0");
    }
    refused(&with_nodes(&followed_by(&followed_by(&[]))), "R,21,18,0");
    // A root that is whole by itself; each of the others is over.
    let more = [(1, "N,3,3,2,4,3,2,4"), (12, "B,0,0\nM,3,0,0")];
    refused(&case_a(&[&more[..], &[(14, "E,3,1")]].concat()), "R,21,16,0");
}

/// Reading comes first, and so does running: a surplus node that isn't readable or is out of range, a cue that doesn't apply.
#[test]
fn a_surplus_node_is_read() {
    refused(&with_nodes(&followed_by(&["D,3"])), "R,4,18,2");
    refused(&with_nodes(&followed_by(&["L,2,3"])), "R,4,18,3");
    refused(&with_nodes(&followed_by(&["E,2,3"])), "R,4,18,3");
    refused(&with_nodes(&followed_by(&["D,02"])), "R,3,18,2");
    refused(&with_nodes(&followed_by(&["O,0,1"])), "R,3,18,1");
    refused(&with_nodes(&followed_by(&["D,2"])).replace("P,1,2", "P,2,1"), "R,5,13,1");
    // A line more than the header says is no node.
    refused(&(case_a(&[]) + "D,2\n"), "R,3,18,1");
}

/// 21 comes after every 8 of earlier nodes, and after their other faults, and before 9.
#[test]
fn a_surplus_node_and_positions() {
    for over in ["L,2,2", "D,2", "E,1,0"] {
        refused(&with_nodes(&["D,0", "E,2,0", "L,1,1", "L,2,1", over]), "R,8,17,1");
        refused(&with_nodes(&["D,0", "E,2,0", "L,1,2", "L,2,2", over]), "R,8,16,2");
        refused(&with_nodes(&["D,0", "D,2", "L,1,1", "L,2,2", over]), "R,20,15,0");
        refused(&with_nodes(&["D,0", "E,2,0", "L,2,2", "L,2,2", over]), "R,6,16,0");
    }
    let unclaimed =
        |nodes: &[&str]| with_nodes(nodes).replace("P,1,2", "P,1,2,1").replace("3,3,2,3,3,2", "3,3,2,3,3,3");
    refused(&unclaimed(&followed_by(&[])), "R,9,13,3");
    for over in ["L,1,3", "L,1,1", "D,2", "E,2,3"] {
        refused(&unclaimed(&followed_by(&[over])), "R,21,18,0");
    }
}

/// One past the last line, ahead of 9, and after every fault of the nodes that there are.
#[test]
fn nodes_over_too_soon() {
    for (count, line) in [(1, 15), (2, 16), (3, 17)] {
        refused(&with_nodes(&followed_by(&[])[..count]), &format!("R,22,{line},0"));
    }
    refused(&with_nodes(&["D,0", "D,1"]), "R,22,16,0");
    refused(&with_nodes(&["D,0", "E,2,0", "L,1,2"]), "R,8,16,2");
    refused(&with_nodes(&["D,0", "E,2,0", "L,2,2"]), "R,6,16,0");
    refused(&with_nodes(&["D,0", "E,1,0"]), "R,20,15,0");
    refused(&with_nodes(&["D,0", "E,2,0"]).replace("P,1,2", "P,2,1"), "R,5,13,1");
    // Fewer lines than the header says are no matter of the walk.
    refused(&case_a(&[(17, "")]), "R,3,17,0");
}

/// A chain of so many D lines, and these lines on the levels below it, where the task t is expected. Methods 0 to 3 are of t: with the
/// subtask t, empty, with action 0, with action 0 and t. Methods 4 and 5 are of another task: empty, and with action 0. The plan is
/// actions 0, 1, 0.
fn chain(count: usize, lines: &[&str]) -> String {
    let actions = "A,0,0,0,0\n".repeat(2);
    let methods = "M,2,1,2,0\nM,2,0,0\nM,2,1,0,0\nM,2,2,0,2,0\nM,3,0,0\nM,3,1,0,0\n";
    let below: String = lines.iter().map(|line| format!("{line}\n")).collect();
    let nodes = count + lines.len();
    format!("N,0,2,2,6,2,3,{nodes}\nI,0\n{actions}{methods}P,0,1,0\n{}{below}", "D,0\n".repeat(count))
}

/// This number on the line of a level, where each has one.
fn on_level(number: u32, level: u32) -> String {
    format!("R,{number},{},0", 11 + level)
}

/// On level 65 a node is tried for its task, its letter and its level, in this order, and level 65 may lack its line.
#[test]
fn order_on_level_65() {
    for line in ["L,0,1", "L,1,2", "L,1,1", "D,4", "D,5", "E,4,0", "E,5,0"] {
        refused(&chain(64, &[line]), &on_level(6, 65));
    }
    for line in ["D,1", "E,0,0", "E,2,0", "E,3,3"] {
        refused(&chain(64, &[line]), &on_level(20, 65));
        refused(&chain(64, &[line, "D,1"]), &on_level(20, 65));
    }
    for line in ["D,0", "D,2", "D,3", "E,1,0", "E,1,3"] {
        refused(&chain(64, &[line]), &on_level(7, 65));
        refused(&chain(64, &[line, "L,0,1"]), &on_level(7, 65));
    }
    refused(&chain(64, &[]), &on_level(22, 65));
}

/// A leaf on level 65: another action is 6, any position is 7, ahead of 8.
#[test]
fn a_leaf_on_level_65() {
    for line in ["L,1,2", "L,1,1", "D,2", "D,4", "E,4,0", "E,5,0"] {
        refused(&chain(63, &["D,2", line]), &on_level(6, 65));
    }
    for line in ["L,0,1", "L,0,2", "L,0,3"] {
        refused(&chain(63, &["D,2", line]), &on_level(7, 65));
    }
    refused(&chain(63, &["D,2"]), &on_level(22, 65));
    // With a leaf of the root's beside the chain, on line 13: its own fault comes first, and it claims a position.
    let beside = |leaf: &str, last: &str| {
        let lines = [&["D,3", leaf], &["D,0"; 62][..], &["D,2", last]].concat();
        chain(0, &lines)
    };
    refused(&beside("L,0,1", "L,0,1"), &on_level(7, 66));
    refused(&beside("L,0,2", "L,0,1"), "R,8,13,2");
    refused(&beside("L,0,2", "D,1"), "R,8,13,2");
    refused(&beside("L,0,1", "D,1"), &on_level(6, 66));
}

/// On level 64 nothing has changed but the numbers.
#[test]
fn level_64() {
    let without_cues = chain(63, &["E,1,0"]).replace("P,0,1,0", "P").replacen(",3,64\n", ",0,64\n", 1);
    assert_eq!(checked(without_cues.as_bytes()), "Y,0,64");
    refused(&chain(63, &["E,1,0"]), "R,9,11,1");
    refused(&chain(63, &["E,1,0", "D,1"]), &on_level(21, 65));
    for (line, number) in [("D,1", 20), ("E,2,0", 20), ("D,4", 6), ("E,4,0", 6), ("L,0,1", 6)] {
        refused(&chain(63, &[line]), &on_level(number, 64));
    }
    refused(&chain(63, &[]), &on_level(22, 64));
    refused(&chain(62, &["D,2", "L,0,2"]), "R,8,75,2");
    refused(&chain(62, &["D,2", "L,0,1", "E,5,0"]), &on_level(21, 65));
    refused(&chain(62, &["D,3", "L,0,2", "E,1,0"]), "R,8,75,2");
    refused(&chain(62, &["D,3", "L,0,3"]), &on_level(22, 65));
}

// ---------------------------------------------------------------- steps

/// The answer of both renderings, and the state that they leave.
fn stepped(state: [u64; 8], sets: [[u64; 8]; 4]) -> (Stepped, [u64; 8]) {
    let [needed, forbidden, added, deleted] = sets;
    let answer = step(state, needed, forbidden, added, deleted);
    let mut fast_state = state;
    assert_eq!((fast::step(&mut fast_state, &sets), fast_state), answer);
    answer
}

/// Yes, with these words computed, and the next state.
fn yes(computed: u32, next: [u64; 8]) -> (Stepped, [u64; 8]) {
    (Stepped { applied: 1, computed }, next)
}

/// No, with the state as it came and no word computed.
fn no(state: [u64; 8]) -> (Stepped, [u64; 8]) {
    (Stepped { applied: 0, computed: 0 }, state)
}

const NONE: [u64; 8] = [0; 8];
const ALL: [u64; 8] = [u64::MAX; 8];

#[test]
fn step_deletes_then_adds() {
    let (five, top) = (word(0, 5), word(7, 1 << 63));
    let state = [5, 0, 0, 0, 0, 0, 0, 1 << 63];
    let deleted = [12, 0, 0, 0, 0, 0, 0, 1 << 63];
    assert_eq!(stepped(state, [state, word(0, 2), word(0, 8), deleted]), yes(0x81, word(0, 9)));
    assert_eq!(stepped(five, [word(0, 2), NONE, word(0, 8), NONE]), no(five));
    assert_eq!(stepped(five, [NONE, word(0, 4), word(0, 8), NONE]), no(five));
    assert_eq!(stepped(NONE, [NONE, NONE, ALL, ALL]), yes(0xff, ALL));
    assert_eq!(stepped(ALL, [ALL, NONE, NONE, ALL]), yes(0xff, NONE));
    // One bit of the last word stands against it.
    assert_eq!(stepped(NONE, [top, NONE, ALL, NONE]), no(NONE));
    assert_eq!(stepped(top, [NONE, top, ALL, NONE]), no(top));
    assert_eq!(stepped(top, [top, NONE, top, top]), yes(0x80, top));
}

/// A word is computed if anything in it is added or deleted, one bit or all of them; the others pass through.
#[test]
fn words_computed() {
    for w in 0..8 {
        for bits in [1, 1 << 63, u64::MAX] {
            let one = word(w, bits);
            let mut rest = ALL;
            rest[w] = !bits;
            assert_eq!(stepped(NONE, [NONE, NONE, one, NONE]), yes(1 << w, one));
            assert_eq!(stepped(ALL, [NONE, NONE, NONE, one]), yes(1 << w, rest));
            assert_eq!(stepped(NONE, [NONE, NONE, one, one]), yes(1 << w, one));
            // It comes out as it was: what is added is there, what is deleted isn't.
            assert_eq!(stepped(ALL, [NONE, NONE, one, NONE]), yes(1 << w, ALL));
            assert_eq!(stepped(NONE, [NONE, NONE, NONE, one]), yes(1 << w, NONE));
            assert_eq!(stepped(one, [NONE, NONE, one, one]), yes(1 << w, one));
        }
    }
    // Two words, one of them added to, the other deleted from.
    assert_eq!(stepped(ALL, [NONE, NONE, word(2, 1), word(5, u64::MAX)]).0, Stepped { applied: 1, computed: 0x24 });
}

/// Needed and forbidden words don't count; an action that adds and deletes nothing computes no word.
#[test]
fn words_only_asked_for_pass_through() {
    for state in [NONE, ALL, word(3, 6)] {
        let others = state.map(|word| !word);
        assert_eq!(stepped(state, [NONE; 4]), yes(0, state));
        assert_eq!(stepped(state, [state, others, NONE, NONE]), yes(0, state));
        for w in 0..8 {
            let mut next = state;
            next[w] |= 1;
            assert_eq!(stepped(state, [state, others, word(w, 1), NONE]), yes(1 << w, next));
        }
    }
}

/// After a no there are no bits, whatever the action would add and delete, and whichever word stands against it.
#[test]
fn no_word_is_computed_after_a_no() {
    for w in 0..8 {
        for bit in [1, 1 << 63] {
            let one = word(w, bit);
            for (added, deleted) in [(ALL, NONE), (NONE, ALL), (ALL, ALL), (one, NONE), (NONE, one)] {
                assert_eq!(stepped(NONE, [one, NONE, added, deleted]), no(NONE));
                assert_eq!(stepped(one, [NONE, one, added, deleted]), no(one));
            }
        }
    }
}

/// No word past the last is ever told computed, whatever number there is.
#[test]
fn words_of_an_answer() {
    let answer = Stepped { applied: 1, computed: 0x81 };
    assert!(answer.applies() && !Stepped { applied: 0, ..answer }.applies());
    assert_eq!((0..10).filter(|&w| answer.is_computed(w)).collect::<Vec<_>>(), [0, 7]);
    let every = Stepped { applied: 1, computed: u32::MAX };
    assert!((0..8).all(|w| every.is_computed(w)));
    assert!([8, 31, 32, 40, 64, usize::MAX].iter().all(|&w| !every.is_computed(w)));
}

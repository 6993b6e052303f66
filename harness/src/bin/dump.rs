//! Writes generated inputs with the plain rendering's answers and lists, for tools/naive.py.
//!
//! dump COUNT SEED FILE
//!
//! A record, all numbers little-endian: the text, three list lengths, the check call's answer,
//! states, nodes and work, the replay call's answer, states and work, the length of an output, the
//! write call's answer, states, nodes, work and output, then 0, or 1 and the answer, states, nodes and
//! work of the call that finds the gaps; then a step: state, needed, forbidden, added, deleted and the state
//! that is left, eight words each, and the answer; last the import call's case, name list and form, three list
//! lengths, the length of its output, its answer, states, nodes, work and output. A list is its count and its
//! members; the zeros at the end of a lent list are left out, but not those of the output.

use harness::compare::{PLAIN_IMPORT, PLAIN_STEP};
use harness::gen::forms::{self, Texts};
use harness::gen::steps::{self, Step};
use harness::gen::{gaps, Inputs, Rng};
use harness::lists::{draw_output, draw_output_of, Dirt, Lengths, Lists, MADE, OUTPUT};
use harness::plain::{check, find_gaps, import, replay, write, Found, Imported, Node, Reply, Stepped, Written};
use std::io::{BufWriter, Result, Write};

fn main() -> Result<()> {
    let arguments: Vec<String> = std::env::args().skip(1).collect();
    let [count, seed, file] = &arguments[..] else {
        eprintln!("arguments: count seed file");
        std::process::exit(2);
    };
    let inputs = Inputs::new(seed.parse().expect("a seed"));
    let mut out = BufWriter::new(std::fs::File::create(file)?);
    let mut lists = Lists::with_output_of(MADE);
    for number in 0..count.parse().expect("a count") {
        let mut rng = inputs.rng(number);
        let text = match rng.below(4) {
            0 => inputs.text(&mut rng),
            1 => inputs.text_to_write(&mut rng),
            _ => inputs.text_to_find(&mut rng),
        };
        let lengths = if rng.percent(85) { Lengths::EXACT } else { Lengths::draw(&mut rng) };
        write_list(&mut out, &text, |byte| vec![byte])?;
        for length in [lengths.states, lengths.nodes, lengths.work] {
            out.write_all(&(length as u32).to_le_bytes())?;
        }
        lists.soil(Dirt::draw(&mut rng));
        let (states, nodes, work) = lists.lend(lengths);
        write_answer(&mut out, check(&text, states, nodes, work))?;
        write_list(&mut out, states, |word| word.to_le_bytes().to_vec())?;
        write_list(&mut out, &flat(nodes), |number| number.to_le_bytes().to_vec())?;
        write_list(&mut out, work, |number| number.to_le_bytes().to_vec())?;
        lists.soil(Dirt::draw(&mut rng));
        let (states, _, work) = lists.lend(lengths);
        write_answer(&mut out, replay(&text, states, work))?;
        write_list(&mut out, states, |word| word.to_le_bytes().to_vec())?;
        write_list(&mut out, work, |number| number.to_le_bytes().to_vec())?;
        let (states, nodes, work, output) = lists.lend_all(lengths, OUTPUT);
        let needed = match write(&text, states, nodes, work, output) {
            Written { number: 0, length, .. } => length as usize,
            _ => text.len(),
        };
        let length = draw_output(&mut rng, needed);
        out.write_all(&(length as u32).to_le_bytes())?;
        lists.soil(Dirt::draw(&mut rng));
        let (states, nodes, work, output) = lists.lend_all(lengths, length);
        write_written(&mut out, write(&text, states, nodes, work, output))?;
        write_list(&mut out, states, |word| word.to_le_bytes().to_vec())?;
        write_list(&mut out, &flat(nodes), |number| number.to_le_bytes().to_vec())?;
        write_list(&mut out, work, |number| number.to_le_bytes().to_vec())?;
        write_list(&mut out, output, |byte| vec![byte])?;
        let finds = gaps::affordable(&text);
        out.write_all(&u32::from(finds).to_le_bytes())?;
        if finds {
            lists.soil(Dirt::draw(&mut rng));
            let (states, nodes, work) = lists.lend(lengths);
            write_found(&mut out, find_gaps(&text, states, nodes, work))?;
            write_list(&mut out, states, |word| word.to_le_bytes().to_vec())?;
            write_list(&mut out, &flat(nodes), |number| number.to_le_bytes().to_vec())?;
            write_list(&mut out, work, |number| number.to_le_bytes().to_vec())?;
        }
        write_step(&mut out, steps::any(&mut rng))?;
        write_import(&mut out, &inputs, &mut rng, &mut lists)?;
    }
    out.flush()
}

/// An input of the import call that is cheap enough, and what comes of it.
fn write_import(out: &mut impl Write, inputs: &Inputs, rng: &mut Rng, lists: &mut Lists) -> Result<()> {
    let texts = loop {
        let texts = inputs.form(rng);
        if forms::affordable(&texts) {
            break texts;
        }
    };
    let lengths = if rng.percent(85) { Lengths::EXACT } else { Lengths::draw(rng) };
    // Without an output it is told how long it has to be.
    let needed = match PLAIN_IMPORT(&texts, lists, Lengths::EXACT, 0) {
        Imported { number: 14, item, .. } => item as usize,
        _ => texts.case.len(),
    };
    let length = if rng.percent(50) { needed + rng.below(40) } else { draw_output_of(rng, needed, MADE) };
    let Texts { case, names, form } = &texts;
    for text in [case, names, form] {
        write_list(out, text, |byte| vec![byte])?;
    }
    for length in [lengths.states, lengths.nodes, lengths.work, length] {
        out.write_all(&(length as u32).to_le_bytes())?;
    }
    lists.soil(Dirt::draw(rng));
    let (states, nodes, work, output) = lists.lend_all(lengths, length);
    write_imported(out, import(case, names, form, states, nodes, work, output))?;
    write_list(out, states, |word| word.to_le_bytes().to_vec())?;
    write_list(out, &flat(nodes), |number| number.to_le_bytes().to_vec())?;
    write_list(out, work, |number| number.to_le_bytes().to_vec())?;
    write_list(out, output, |byte| vec![byte])
}

fn write_step(out: &mut impl Write, Step { state, sets }: Step) -> Result<()> {
    let mut left = state;
    let Stepped { applied, computed } = PLAIN_STEP(&mut left, &sets);
    for word in [&state].into_iter().chain(&sets).chain([&left]).flatten() {
        out.write_all(&word.to_le_bytes())?;
    }
    [applied, computed].iter().try_for_each(|number| out.write_all(&number.to_le_bytes()))
}

/// The numbers of all records.
fn flat(nodes: &[Node]) -> Vec<u32> {
    nodes.iter().flat_map(|node| [node.letter, node.label, node.place, node.start, node.end]).collect()
}

fn write_written(out: &mut impl Write, answer: Written) -> Result<()> {
    let Written { number, line, item, cues, nodes, length } = answer;
    write_answer(out, Reply { number, line, item, cues, nodes })?;
    out.write_all(&length.to_le_bytes())
}

fn write_found(out: &mut impl Write, answer: Found) -> Result<()> {
    let Found { number, line, item, cues, nodes, tried } = answer;
    write_answer(out, Reply { number, line, item, cues, nodes })?;
    out.write_all(&tried.to_le_bytes())
}

fn write_imported(out: &mut impl Write, answer: Imported) -> Result<()> {
    let Imported { number, line, item, cues, nodes, tried, length } = answer;
    write_answer(out, Reply { number, line, item, cues, nodes })?;
    [tried, length].iter().try_for_each(|number| out.write_all(&number.to_le_bytes()))
}

fn write_answer(out: &mut impl Write, answer: Reply) -> Result<()> {
    for number in [answer.number, answer.line, answer.item, answer.cues, answer.nodes] {
        out.write_all(&number.to_le_bytes())?;
    }
    Ok(())
}

/// Writes a list without the zeros at its end. (No text ends in a zero byte by 01's rules, but
/// a damaged one may: texts are written whole, and so is the output.)
fn write_list<T: Copy>(out: &mut impl Write, list: &[T], bytes: impl Fn(T) -> Vec<u8>) -> Result<()> {
    let is_zero = |item: &T| bytes(*item).iter().all(|&byte| byte == 0);
    let whole = size_of::<T>() == 1;
    let count =
        if whole { list.len() } else { list.iter().rposition(|item| !is_zero(item)).map_or(0, |last| last + 1) };
    out.write_all(&(count as u32).to_le_bytes())?;
    list[..count].iter().try_for_each(|&item| out.write_all(&bytes(item)))
}

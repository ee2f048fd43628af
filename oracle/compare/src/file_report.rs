//! Where an input of the writer or the converter that differs is written, and how it is made
//! smaller.
use crate::file_buffers::{before, Desk};
use crate::file_judge::judge_input;
use crate::files::{contents, Input};
use crate::pairs::Pair;
use crate::report::{put, put_pair, quietly, way, Report};
use crate::shrink::shrink;
use reference::refair::gen::case_bytes;
use reference::refair::Lens;
use reference::{second_edition, Convert, Parts, Write};
use std::path::Path;

impl Report {
    /// Names an input that differs, writes it, makes it smaller and writes that.
    pub fn input(&mut self, input: &Input, seed: u64, why: &str, desk: &mut Desk) -> std::io::Result<()> {
        if !self.named(seed, input.name(), why) {
            return Ok(());
        }
        let folder = self.dir.join(format!("{seed}.{}", input.name()));
        put_input(&folder.join("whole"), input, seed, desk)?;
        let small = smaller_input(input, seed, desk);
        let input = small.as_ref().unwrap_or(input);
        let why = judge_input(input, seed, desk).err().unwrap_or_default();
        put_input(&folder, input, seed, desk)?;
        let (name, mode) = (input.name(), self.mode.name());
        let tool = ["refwrite", "refconvert"][input.kind()];
        put(
            &folder,
            "README",
            format!(
                "An input of the {name} that differs, seed {seed}{mode}:\n\n{why}\n\ninput.bin was made smaller \
                 from whole/. ours.bin is the library's output after the call, theirs.bin\nthe reference's, and \
                 before.bin what both held before; result.txt is what both gave.\n\nThe reference alone: {tool} \
                 input.bin OUTPUT\nBoth again, from the seed: cargo run --offline --release -p compare -- {seed} \
                 1{mode}\n"
            ),
        )?;
        println!("  made smaller, {} bytes: {why}\n  written to {}", input.bytes().len(), folder.display());
        Ok(())
    }

    /// Names a case that differs and writes it with its requests.
    pub fn case(&mut self, pair: &Pair, seed: u64, why: &str) -> std::io::Result<()> {
        if !self.named(seed, &pair.sort, why) {
            return Ok(());
        }
        let folder = self.dir.join(format!("{seed}.case"));
        put_pair(&folder, pair)?;
        let (mode, sort) = (self.mode.name(), &pair.sort);
        put(&folder, "README", format!("A case that differs, seed {seed}{mode}, made as: {sort}\n\n{why}\n"))?;
        println!("  written to {}", folder.display());
        Ok(())
    }
}

/// An input with what both gave.
pub fn put_input(folder: &Path, input: &Input, seed: u64, desk: &mut Desk) -> std::io::Result<()> {
    std::fs::create_dir_all(folder)?;
    let held = before(input.room(), seed);
    let mut due = held.clone();
    let want = input.due(&mut due);
    let got = desk.run(input, seed);
    put(folder, "input.bin", input.bytes())?;
    put(folder, "before.bin", held)?;
    put(folder, "theirs.bin", due)?;
    put(folder, "ours.bin", desk.out())?;
    let ours = format!("refusal {}, length {}", got.refusal, got.length);
    put(folder, "result.txt", format!("the reference: {want:?}\nours: {ours}\n"))
}

/// The smallest input found that still differs in the same way; none where it cannot be made
/// smaller.
pub fn smaller_input(input: &Input, seed: u64, desk: &mut Desk) -> Option<Input> {
    quietly(|| {
        let way_of = |input: &Input, desk: &mut Desk| judge_input(input, seed, desk).err().map(way_of_files);
        let due = way_of(input, desk)?;
        let mut differs = |p: &Pair| of_pair(input, p).is_some_and(|input| way_of(&input, desk).as_ref() == Some(&due));
        let pair = as_pair(input).filter(|pair| differs(pair))?;
        let small = shrink(&pair, &mut differs);
        of_pair(input, &small)
    })
}

/// Two refusals that differ stay the same two; else the words of a difference before its first number
/// count.
fn way_of_files(why: String) -> String {
    if why.contains("gives refusal") { why } else { way(&why) }
}

/// An input as a pair that can be made smaller: its file, and the room for the length of the
/// answers.
fn as_pair(input: &Input) -> Option<Pair> {
    let case = match input {
        Input::Write(w) => laid_out(&w.parts)?,
        Input::Convert(c) => c.file.clone(),
    };
    let lens = Lens { words: 0, floats: 0, marks: 0, answers: input.room() as u64 };
    Some(Pair { case, requests: Vec::new(), lens, sort: String::new() })
}

/// The input of such a pair.
fn of_pair(input: &Input, p: &Pair) -> Option<Input> {
    let room = p.lens.answers;
    Some(match input {
        Input::Write(w) => Input::Write(Write { edition: w.edition, parts: contents(&p.case)?.1, room }),
        Input::Convert(c) => Input::Convert(Convert { to: c.to, file: p.case.clone(), room }),
    })
}

/// The edition 2 file of parts that are as long as their counts say.
fn laid_out(p: &Parts) -> Option<Vec<u8>> {
    let vectors = |list: &[f64]| list.chunks_exact(3).map(|v| [v[0], v[1], v[2]]).collect::<Vec<_>>();
    let first = case_bytes(p.dimension as u32, &vectors(&p.points), &p.words, &vectors(&p.velocity), &p.pressure);
    let case = second_edition(&first, &p.zones);
    let counts = |p: &Parts| (p.dimension, p.point_count, p.word_count, p.cell_count, p.zones.len());
    contents(&case).filter(|(_, read)| counts(read) == counts(p)).map(|_| case)
}

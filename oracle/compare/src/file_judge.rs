//! Compares the writer and the converter with the reference's: the refusal, the length and every
//! byte of the output, those behind the file too. And what must hold of a case that can be read,
//! whatever the reference makes of it: its contents give the very file, the other edition and back
//! give it again, and with zones 0 a job answers its requests alike in both editions.
use crate::buffers::Area;
use crate::file_buffers::{before, Desk};
use crate::files::{contents, Input};
use crate::pairs::Pair;
use hookyellow::raw::Written;
use hookyellow::{needs, Case};
use reference::{read_case, Convert, Write};
use std::collections::BTreeMap;
use std::panic::catch_unwind;

/// The refusals of both.
const REFUSALS: [u64; 6] = [1, 2, 3, 45, 46, 47];

/// What came of the inputs and the cases.
#[derive(Default, Clone, Debug, PartialEq)]
pub struct Files {
    /// of the writer and of the converter, by the refusal, 0 for a file
    pub came: [BTreeMap<u64, u64>; 2],
    /// bytes of outputs
    pub bytes: u64,
    pub cases: Cases,
}

/// What came of the cases.
#[derive(Default, Clone, Copy, Debug, PartialEq)]
pub struct Cases {
    /// that no reader accepts
    pub refused: u64,
    /// that were written again, of edition 1 and of edition 2
    pub written: [u64; 2],
    /// with a zone that is not 0, refused 46 and then taken with zones 0
    pub nonzero: u64,
    /// that went to the other edition and came back
    pub converted: u64,
    /// whose job was answered alike in both editions, and refused alike
    pub served: u64,
    pub alike: u64,
    /// words of these answers
    pub words: u64,
}

impl Files {
    pub fn add(&mut self, other: &Self) {
        for (came, others) in self.came.iter_mut().zip(&other.came) {
            others.iter().for_each(|(refusal, n)| *came.entry(*refusal).or_default() += n);
        }
        self.bytes += other.bytes;
        let (all, one) = (&mut self.cases, &other.cases);
        all.refused += one.refused;
        all.written = [0, 1].map(|i| all.written[i] + one.written[i]);
        all.nonzero += one.nonzero;
        all.converted += one.converted;
        all.served += one.served;
        all.alike += one.alike;
        all.words += one.words;
    }

    pub fn of(&self, kind: usize, refusal: u64) -> u64 {
        self.came[kind].get(&refusal).copied().unwrap_or(0)
    }

    fn refusals(&self, kind: usize) -> String {
        REFUSALS.map(|k| format!("{k}: {}", self.of(kind, k))).join(", ")
    }

    /// The inputs of both kinds.
    pub fn inputs(&self) -> String {
        let missing = |kind: usize| {
            let list = REFUSALS.iter().filter(|k| self.of(kind, **k) == 0);
            let list: Vec<String> = list.map(|k| k.to_string()).collect();
            if list.is_empty() { "none".to_string() } else { list.join(" ") }
        };
        format!(
            "case files: {} written, {} converted, {} output bytes compared\nrefused by the writer {}; by the \
             converter {}\nnever came: refusals of the writer {}, of the converter {}",
            self.of(0, 0), self.of(1, 0), self.bytes, self.refusals(0), self.refusals(1), missing(0), missing(1)
        )
    }

    pub fn cases(&self) -> String {
        let c = &self.cases;
        format!(
            "cases: {} of edition 1 and {} of edition 2 written again from their contents; {} with a zone that is \
             not 0 refused 46; {} converted there and back, with zones 0; {} of their jobs answered alike, {} \
             words, and {} refused alike; {} cases that both readers refuse",
            c.written[0], c.written[1], c.nonzero, c.converted, c.served, c.words, c.alike - c.served, c.refused
        )
    }
}

/// Runs an input by both and compares.
pub fn judge_input(input: &Input, seed: u64, desk: &mut Desk) -> Result<Files, String> {
    let mut due = before(input.room(), seed);
    let ran = catch_unwind(std::panic::AssertUnwindSafe(|| input.due(&mut due)));
    let want = match ran.map_err(|_| "the reference itself fails".to_string())? {
        Ok(length) => Written { refusal: 0, length },
        Err(refusal) => Written { refusal: refusal as u64, length: 0 },
    };
    let got = desk.run(input, seed);
    desk.intact(input)?;
    equal(input.name(), want, &due, got, desk.out())?;
    let mut files = Files { bytes: due.len() as u64, ..Files::default() };
    files.came[input.kind()].insert(got.refusal, 1);
    Ok(files)
}

fn equal(name: &str, want: Written, due: &[u8], got: Written, out: &[u8]) -> Result<(), String> {
    if got.refusal != want.refusal {
        return Err(format!("the {name} gives refusal {}, ours {}", want.refusal, got.refusal));
    }
    if got.length != want.length {
        return Err(format!("the {name} gives length {}, ours {}", want.length, got.length));
    }
    let Some(i) = (0..due.len()).find(|&i| due[i] != out[i]) else { return Ok(()) };
    let place = match want {
        Written { refusal: 0, length } if i < length => part_of(&due[..length], i),
        Written { refusal: 0, length } => format!("behind the {length} bytes of the file"),
        Written { refusal, .. } => format!("under refusal {refusal}"),
    };
    Err(format!("byte {i} of the {name}'s output, {place}: {:02x}, ours {:02x}", due[i], out[i]))
}

/// The part of a file that a byte is of.
fn part_of(file: &[u8], at: usize) -> String {
    let Some((edition, p)) = contents(file) else { return "in no part".into() };
    let trailer = file.len() - 32;
    let (words, cells) = (p.word_count, p.cell_count);
    let mut parts = vec![("points", 24 * p.point_count), ("words", 4 * words), ("velocities", 24 * cells)];
    parts.push(("pressures", 8 * cells));
    if edition == 2 {
        parts.extend([("zones", 4 * cells), ("the zone offset", 4)]);
    }
    let mut end = 0;
    let found = parts.iter().find(|(_, length)| {
        end += *length as usize;
        at < end
    });
    found.map_or_else(|| format!("word {} of the trailer", (at - trailer) / 4), |(name, _)| format!("in {name}"))
}

/// The file that the library makes of an input, or its refusal. What is not the file's is as it
/// was.
fn given(input: &Input, seed: u64, desk: &mut Desk) -> Result<Result<Vec<u8>, u64>, String> {
    let got = desk.run(input, seed);
    desk.intact(input)?;
    let (held, out) = (before(input.room(), seed), desk.out());
    let (Written { refusal, length }, name) = (got, input.name());
    if length > out.len() || refusal != 0 && length != 0 {
        return Err(format!("the {name} gives refusal {refusal} and length {length} for {} bytes", out.len()));
    }
    match (length..out.len()).find(|&i| out[i] != held[i]) {
        Some(i) => Err(format!("byte {i} of the {name}'s output is written, behind {length} bytes")),
        None if refusal != 0 => Ok(Err(refusal)),
        None => Ok(Ok(out[..length].to_vec())),
    }
}

/// The case of a pair through the library alone.
pub fn judge_case(p: &Pair, seed: u64, desk: &mut Desk, area: &mut Area) -> Result<Files, String> {
    let theirs = read_case(&p.case).map_or_else(u64::from, |_| 0);
    let ours = needs(&Case::from_bytes(p.case.clone())).map_or_else(|refusal| refusal.number(), |_| 0);
    if theirs != ours {
        return Err(format!("the reader gives refusal {theirs}, ours {ours}"));
    }
    let mut files = Files::default();
    if ours != 0 {
        files.cases.refused = 1;
        return Ok(files);
    }
    let (edition, parts) = contents(&p.case).ok_or("a case that can be read has no contents")?;
    let nonzero = parts.zones.iter().any(|&zone| zone != 0);
    // as long as the file, or a little longer
    let write = Input::Write(Write { edition, parts, room: p.case.len() as u64 + seed % 3 * 5 });
    if given(&write, seed, desk)?.as_ref() != Ok(&p.case) {
        return Err("the contents of the case do not give its file again".into());
    }
    files.cases.written[edition as usize - 1] = 1;
    let mut pair = p.clone();
    if nonzero {
        files.cases.nonzero = 1;
        zero_zones(&mut pair.case, seed, desk)?;
    }
    let other = there_and_back(&pair.case, edition, seed, desk)?;
    files.cases.converted = 1;
    alike(&pair, other, seed, area, &mut files.cases)?;
    Ok(files)
}

/// A file with a zone that is not 0 cannot go to edition 1; then its zones are made 0.
fn zero_zones(case: &mut [u8], seed: u64, desk: &mut Desk) -> Result<(), String> {
    let input = Input::Convert(Convert { to: 1, room: case.len() as u64, file: case.to_vec() });
    match given(&input, seed, desk)? {
        Err(46) => {}
        Err(k) => return Err(format!("46 is due for a zone that is not 0, ours gives {k}")),
        Ok(_) => return Err("46 is due for a zone that is not 0, ours gives a file".into()),
    }
    let (end, cells) = (case.len() - 36, contents(case).map_or(0, |(_, parts)| parts.zones.len()));
    case[end - 4 * cells..end].fill(0);
    Ok(())
}

/// The file in the other edition; from there it comes back byte for byte.
fn there_and_back(case: &[u8], edition: u64, seed: u64, desk: &mut Desk) -> Result<Vec<u8>, String> {
    let mut converted = |file: &[u8], to: u64| {
        let room = file.len() as u64 + file.len() as u64 / 8 + 4 + seed % 2 * 9;
        let made = given(&Input::Convert(Convert { to, room, file: file.to_vec() }), seed, desk)?;
        made.map_err(|k| format!("a case that can be read is refused {k} on the way to edition {to}"))
    };
    let other = converted(case, 3 - edition)?;
    let back = converted(&other, edition)?;
    if !same_contents(case, &other) {
        return Err("the converted file has other contents".into());
    }
    if back != case {
        return Err("the converted file does not come back".into());
    }
    Ok(other)
}

/// Both editions of a case: the same trailer but for its first word, the same parts, and no zone
/// but 0.
fn same_contents(case: &[u8], other: &[u8]) -> bool {
    let (Some((edition, p)), Some((to, q))) = (contents(case), contents(other)) else { return false };
    let parts = (24 * p.point_count + 4 * p.word_count + 32 * p.cell_count) as usize;
    let trailers = case[case.len() - 28..] == other[other.len() - 28..] && p.dimension == q.dimension;
    trailers && to == 3 - edition && case[..parts] == other[..parts] && q.zones.iter().all(|&zone| zone == 0)
}

/// The pair's requests on the file in the other edition.
fn alike(p: &Pair, other: Vec<u8>, seed: u64, area: &mut Area, cases: &mut Cases) -> Result<(), String> {
    let mut ended = |p: &Pair| {
        let result = area.run(p, seed);
        area.intact(p).map(|()| (result, area.answers().to_vec(), area.marks().to_vec()))
    };
    let first = ended(p)?;
    let second = ended(&Pair { case: other, ..p.clone() })?;
    if first.0 != second.0 {
        return Err(format!("the job gives {}, on the converted file {}", first.0, second.0));
    }
    if let Some(i) = (0..first.1.len()).find(|&i| first.1[i] != second.1[i]) {
        return Err(format!("answer word {i} is {:016x}, on the converted file {:016x}", first.1[i], second.1[i]));
    }
    if let Some(i) = (0..first.2.len()).find(|&i| first.2[i] != second.2[i]) {
        return Err(format!("byte {i} of the marks is {}, on the converted file {}", first.2[i], second.2[i]));
    }
    cases.alike = 1;
    if first.0 == 0 {
        cases.served = 1;
        cases.words = first.1.len() as u64;
    }
    Ok(())
}

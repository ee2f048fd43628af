//! The cells of codes 1 and 9 against FLURSYS's own locator, called here and not through the
//! reference job: code 1 against `locate_cell` of streamlines.rs, code 9 against the reference's
//! copy of that file with one bin for all cells. FLURSYS has no position: the first word is what it
//! gives.
use crate::pairs::Pair;
use reference::{by_bins, read_case};
use reference::flursys::workbench::results::{streamlines, streamlines_plain, ResultDataset};
use reference::flursys::Vec3;
use reference::refair::{build_mesh, NONE};

/// How many cells in the answers of a served job are FLURSYS's; an error names the first that is
/// not.
pub fn held(p: &Pair, answers: &[u64]) -> Result<u64, String> {
    let asked = (0..p.requests.len() / 128).any(|i| by_bins(p.code(i)) == 1);
    let case = read_case(&p.case).ok().map(|read| read.case).filter(|case| asked && case.dimension == 2);
    let Some(case) = case else { return Ok(0) };
    let mesh = build_mesh(&case).map_err(|k| format!("FLURSYS refuses the mesh of a served job ({k})"))?;
    let data = ResultDataset::stub(mesh, case.velocity);
    let refuses = "FLURSYS refuses the field of a served job";
    let bins = streamlines::StreamlineField::from_dataset(&data).map_err(|_| refuses)?;
    let all = streamlines_plain::StreamlineField::from_dataset(&data).map_err(|_| refuses)?;
    let (mut at, mut cells) = (0, 0);
    for i in 0..p.requests.len() / 128 {
        let code = p.code(i);
        if by_bins(code) == 1 && answers[at] == 0 && answers[at + 1] > 0 {
            let [x, y, z] = [1, 2, 3].map(|k| f64::from_bits(p.word(i, k)));
            let point = Vec3::new(x, y, z);
            let cell = if code == 1 { bins.locate_cell(point) } else { all.locate_cell(point) };
            let (want, got) = (cell.map_or(NONE, |c| c as u64), answers[at + 2]);
            if want != got {
                return Err(format!("answer of request {i} (code {code}): FLURSYS's cell {want:016x}, ours {got:016x}"));
            }
            cells += 1;
        }
        at += 2 + answers[at + 1] as usize;
    }
    Ok(cells)
}

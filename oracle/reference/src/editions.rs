//! Case files of either edition. Edition 2 has a zone for each cell, the offset of that part in the
//! four bytes before the trailer, and 100 more in the dimension word.
use crate::LANDED;
use refair::ref02::{self, edition2_of, Case02, Landed};
use refair::{JobOut, Lens, Order, Stats};

/// The request that brought the zones.
const ZONES: u32 = 5;

/// The case in these bytes, of either edition, or its refusal: 1, 2, 3 or 45.
pub fn read_case(case: &[u8]) -> Result<Case02, u32> {
    ref02::read_case02(case, Landed::until(LANDED))
}

/// The bytes of an edition 1 file as one of edition 2 with these zones.
pub fn second_edition(case: &[u8], zones: &[u32]) -> Vec<u8> {
    edition2_of(case, zones)
}

/// The bytes of an edition 2 file without its zones, as one of edition 1; none where it is no edition
/// 2 file that can be read.
pub fn first_edition(case: &[u8]) -> Option<Vec<u8>> {
    let cells = read_case(case).ok().filter(|read| read.edition == 2)?.zones.len();
    let trailer = case.len() - 32;
    let mut bytes = [&case[..trailer - 4 - 4 * cells], &case[trailer..]].concat();
    let word = bytes.len() - 32;
    bytes[word] -= 100;
    Some(bytes)
}

/// The reference job as it is without zones, for edition 1 files alone; codes 1 to 8 are the
/// unchanged Rust's.
pub fn job_without_zones(case: &[u8], requests: &[u8], lens: Lens, order: Order, stats: &mut Stats) -> JobOut {
    let others: Vec<u32> = (1..=LANDED).filter(|&request| request != ZONES).collect();
    ref02::job(case, requests, lens, order, Landed::of(&others), stats)
}

#[cfg(test)]
mod tests {
    use super::*;
    use refair::gen::{case_bytes, grid2, mesh_words};

    #[test]
    fn both_editions_have_the_same_contents() {
        let m = grid2(3, 1, 1.0, 1.0);
        let first = case_bytes(2, &m.pts, &mesh_words(&m), &[[1.0, 2.0, 3.0]; 3], &[4.0; 3]);
        let second = second_edition(&first, &[7, 0, 255]);
        assert_eq!(second.len(), first.len() + 3 * 4 + 4);
        let read = read_case(&second).ok().unwrap();
        assert_eq!((read.edition, read.case.dimension, read.zones), (2, 2, vec![7, 0, 255]));
        assert_eq!(first_edition(&second), Some(first.clone()));
        assert_eq!(read_case(&first).ok().unwrap().zones, [0; 3]);
        assert_eq!(first_edition(&first), None);
        assert_eq!(first_edition(&second_edition(&first, &[0, 256, 0])), None);
    }

    #[test]
    fn without_zones_edition_2_is_refused() {
        let m = grid2(1, 1, 1.0, 1.0);
        let first = case_bytes(2, &m.pts, &mesh_words(&m), &[[1.0, 2.0, 3.0]], &[4.0]);
        let run = |case: &[u8]| job_without_zones(case, &[], Lens::default(), Order::Rust, &mut Stats::default());
        assert_eq!(run(&first), JobOut::Done { answers: Vec::new(), marks: vec![false] });
        assert_eq!(run(&second_edition(&first, &[0])), JobOut::Refused(1));
    }
}

//! The velocities and pressures in the bytes of a case of either edition. Zones are no fields: two
//! files share them as they share the mesh.
use reference::refair::gen::Rng;

pub struct Fields {
    pub cells: usize,
    velocities: usize,
    pressures: usize,
    /// 1 or 2
    pub edition: u32,
}

impl Fields {
    /// Where the fields stand; None where the trailer is wrong (refusal 1): then the bytes have none.
    pub fn of(case: &[u8]) -> Option<Fields> {
        let trailer = case.len().checked_sub(32)?;
        let at = |place: usize| u32::from_le_bytes(case[place..place + 4].try_into().expect("four bytes")) as u64;
        let word = |k: usize| at(trailer + 4 * k);
        let edition = match word(0) {
            2 | 3 => 1,
            102 | 103 => 2,
            _ => return None,
        };
        let (p, w, c) = (word(1), word(2), word(3));
        let offsets = [0, 24 * p, 24 * p + 4 * w, 24 * p + 4 * w + 24 * c];
        let end = offsets[3] + 8 * c;
        let zones = if edition == 2 { 4 * c + 4 } else { 0 };
        let fits = (0..4).all(|k| word(4 + k) == offsets[k]) && end + zones == trailer as u64;
        if !fits || edition == 2 && at(trailer - 4) != end {
            return None;
        }
        Some(Fields { cells: c as usize, velocities: offsets[2] as usize, pressures: offsets[3] as usize, edition })
    }

    /// Gives some or all of the four values of a cell other bits.
    pub fn change(&self, case: &mut [u8], cell: usize, r: &mut Rng) {
        let at = self.velocities + 24 * cell;
        let places = [at, at + 8, at + 16, self.pressures + 8 * cell];
        let always = r.below(4);
        for (k, place) in places.into_iter().enumerate() {
            if k == always || !r.one_in(4) {
                let bits: &mut [u8; 8] = (&mut case[place..place + 8]).try_into().expect("eight bytes");
                *bits = other(u64::from_le_bytes(*bits), r).to_le_bytes();
            }
        }
    }
}

/// Other bits than the given ones: awkward, random, near or plain.
fn other(bits: u64, r: &mut Rng) -> u64 {
    loop {
        let new = match r.below(8) {
            0 => f64::NAN.to_bits(),
            1 => f64::INFINITY.to_bits() | r.next() << 63,
            2 => r.odd_float().to_bits(),
            3 => r.next(),
            4 => bits ^ 1,
            5 => bits ^ 1 << 63,
            _ => r.range(-3.0, 3.0).to_bits(),
        };
        if new != bits {
            return new;
        }
    }
}

#[cfg(test)]
mod tests {
    use super::*;
    use reference::refair::gen::{case_bytes, grid2, mesh_words};
    use reference::second_edition;

    /// Two squares with ones for all values, in both editions.
    fn editions() -> [Vec<u8>; 2] {
        let m = grid2(2, 1, 1.0, 1.0);
        let first = case_bytes(2, &m.pts, &mesh_words(&m), &[[1.0; 3]; 2], &[1.0; 2]);
        let second = second_edition(&first, &[3, 300]);
        [first, second]
    }

    /// Where the bytes of two files differ.
    fn changed(a: &[u8], b: &[u8]) -> Vec<usize> {
        (0..a.len()).filter(|&i| a[i] != b[i]).collect()
    }

    #[test]
    fn fields_stand_alike_in_both_editions() {
        for (case, edition) in editions().iter().zip([1, 2]) {
            let fields = Fields::of(case).expect("a right trailer");
            assert_eq!((fields.cells, fields.velocities, fields.pressures, fields.edition), (2, 192, 240, edition));
        }
    }

    /// Of cell 1: bytes 24 to 48 of the velocities and the last eight of the pressures, and nothing else.
    #[test]
    fn a_change_stays_in_its_cell() {
        let r = &mut Rng::new(1);
        for case in editions() {
            let mut seen = vec![false; case.len()];
            for _ in 0..200 {
                let mut other = case.clone();
                Fields::of(&case).expect("a right trailer").change(&mut other, 1, r);
                let places = changed(&case, &other);
                let own = |i: &usize| (216..240).contains(i) || (248..256).contains(i);
                assert!(!places.is_empty() && places.iter().all(own), "{places:?}");
                places.iter().for_each(|&i| seen[i] = true);
            }
            assert!((216..240).chain(248..256).all(|i| seen[i]));
        }
    }

    #[test]
    fn a_wrong_trailer_has_no_fields() {
        let [first, second] = editions();
        let with = |case: &[u8], from_end: usize, x: u32| {
            let mut case = case.to_vec();
            let at = case.len() - from_end;
            case[at..at + 4].copy_from_slice(&x.to_le_bytes());
            case
        };
        for (case, word) in [(&first, 102), (&second, 2), (&second, 104), (&first, 4)] {
            assert!(Fields::of(&with(case, 32, word)).is_none(), "{word}");
        }
        assert!(Fields::of(&with(&second, 36, 260)).is_none());
        assert!(Fields::of(&with(&second, 36, 256)).is_some());
        assert!(Fields::of(&second[4..]).is_none());
        assert!(Fields::of(&second[second.len() - 31..]).is_none());
        let short = [&102u32.to_le_bytes()[..], &[0; 28]].concat();
        assert!(Fields::of(&short).is_none());
    }
}

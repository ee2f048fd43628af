//! The lent parts and the output of the writer and the converter, each between guard words, at
//! changing alignments. The output holds a5 before a call, and with odd seeds bytes in no order.
use crate::buffers::{timed, Held, Lent};
use crate::files::Input;
use hookyellow::raw::{hookyellow_convert, hookyellow_write_case, Counts, Written};
use reference::refair::gen::Rng;
use reference::{Convert, Write};

pub type Writer = unsafe extern "C" fn(
    Counts, *const u64, usize, *const u32, usize, *const u64, usize, *const u64, usize, *const u32, usize,
    *mut u8, usize,
) -> Written;
pub type Converter = unsafe extern "C" fn(*const u8, usize, usize, *mut u8, usize) -> Written;

/// The writer and the converter of the library, or in the tests wrong ones.
#[derive(Clone, Copy)]
pub struct Library {
    pub write: Writer,
    pub convert: Converter,
}

impl Library {
    pub fn linked() -> Self {
        Self { write: hookyellow_write_case, convert: hookyellow_convert }
    }
}

pub struct Desk {
    library: Library,
    points: Lent<u64>,
    words: Lent<u32>,
    velocities: Lent<u64>,
    pressures: Lent<u64>,
    zones: Lent<u32>,
    file: Lent<u8>,
    out: Lent<u8>,
}

/// What the output holds before a call.
pub fn before(room: usize, seed: u64) -> Vec<u8> {
    let r = &mut Rng::new(seed);
    if seed % 2 == 0 { vec![0xa5; room] } else { (0..room).map(|_| r.next() as u8).collect() }
}

fn bits(list: &[f64]) -> Vec<u64> {
    list.iter().map(|x| x.to_bits()).collect()
}

impl Desk {
    pub fn of(library: Library) -> Self {
        Self {
            library,
            points: Lent::new("the points", 0x7ff4_c0ff_ee22_0001),
            words: Lent::new("the words", 0xc0ff_ee11),
            velocities: Lent::new("the velocities", 0x7ff4_c0ff_ee22_0002),
            pressures: Lent::new("the pressures", 0x7ff4_c0ff_ee22_0003),
            zones: Lent::new("the zones", 0xc0ff_ee12),
            file: Lent::new("the file", 0x5a),
            out: Lent::new("the output", 0xe7),
        }
    }

    /// Runs the library on an input; the seed decides what the output holds and where all lies.
    pub fn run(&mut self, input: &Input, seed: u64) -> Written {
        let r = &mut Rng::new(!seed);
        let held = before(input.room(), seed);
        let (out, room) = self.out.lend(r.below(8), held.len(), Held::List(&held));
        match input {
            Input::Write(w) => self.write(w, (out, room), r),
            Input::Convert(c) => self.convert(c, (out, room), r),
        }
    }

    fn write(&mut self, w: &Write, (out, room): (*mut u8, usize), r: &mut Rng) -> Written {
        let p = &w.parts;
        let counts = Counts {
            edition: w.edition as usize,
            dimension: p.dimension as usize,
            points: p.point_count as usize,
            words: p.word_count as usize,
            cells: p.cell_count as usize,
        };
        let (a, an) = self.points.lend(r.below(8), p.points.len(), Held::List(&bits(&p.points)));
        let (b, bn) = self.words.lend(r.below(8), p.words.len(), Held::List(&p.words));
        let (c, cn) = self.velocities.lend(r.below(8), p.velocity.len(), Held::List(&bits(&p.velocity)));
        let (d, dn) = self.pressures.lend(r.below(8), p.pressure.len(), Held::List(&bits(&p.pressure)));
        let (e, en) = self.zones.lend(r.below(8), p.zones.len(), Held::List(&p.zones));
        let write = self.library.write;
        timed(|| unsafe { write(counts, a, an, b, bn, c, cn, d, dn, e, en, out, room) })
    }

    fn convert(&mut self, c: &Convert, (out, room): (*mut u8, usize), r: &mut Rng) -> Written {
        let (a, an) = self.file.lend(r.below(8), c.file.len(), Held::List(&c.file));
        let convert = self.library.convert;
        timed(|| unsafe { convert(a, an, c.to as usize, out, room) })
    }

    pub fn out(&self) -> &[u8] {
        self.out.lent()
    }

    /// The guards stand, and nothing of the input that ran last was written.
    pub fn intact(&self, input: &Input) -> Result<(), String> {
        self.out.intact()?;
        let kept = match input {
            Input::Write(w) => {
                self.points.intact()?;
                self.words.intact()?;
                self.velocities.intact()?;
                self.pressures.intact()?;
                self.zones.intact()?;
                let p = &w.parts;
                let same = |lent: &Lent<u64>, list: &[f64]| lent.lent() == bits(list);
                let fields = same(&self.velocities, &p.velocity) && same(&self.pressures, &p.pressure);
                let words = self.words.lent() == p.words && self.zones.lent() == p.zones;
                fields && words && same(&self.points, &p.points)
            }
            Input::Convert(c) => {
                self.file.intact()?;
                self.file.lent() == c.file
            }
        };
        if kept { Ok(()) } else { Err("what is only read was written".into()) }
    }
}

//! Libraries whose lines go by another rule for zones: the lines of the right library are made anew
//! from those that it gives for the edition 1 file of the same contents, where they run on.
use crate::editions::lines;
use crate::pairs::Mode;
use crate::tests::first_difference_in;
use hookyellow::raw::hookyellow_job;
use reference::flursys::Vec3;
use reference::refair::ref02::{millimetres, standing};
use reference::refair::{bits, with_room, Order, Stats, Twin};
use reference::{by_bins, first_edition, read_case};
use std::slice::{from_raw_parts, from_raw_parts_mut};

/// The room of a served edition 2 file.
pub struct Room {
    zones: Vec<u32>,
    twin: Twin,
}

impl Room {
    fn of(case: &[u8]) -> Option<Self> {
        let read = read_case(case).ok().filter(|read| read.edition == 2 && read.case.dimension == 2)?;
        let twin = with_room(&read.case, Order::Rust, &mut Stats::default(), |room, _| room.twin.clone());
        Some(Self { zones: read.zones, twin: twin.ok().flatten()? })
    }

    /// The cells that contain a point, rising.
    fn around(&self, p: Vec3) -> impl DoubleEndedIterator<Item = usize> + '_ {
        (0..self.zones.len()).filter(move |&cell| standing((p.x, p.y), &self.twin.polygons[cell]) > 0)
    }

    /// The zone of a point by the locator of a code.
    fn zone(&self, code: u64, p: Vec3) -> u32 {
        let cell = if by_bins(code) == code { self.twin.locate(p) } else { self.around(p).next() };
        self.zones[cell.expect("the points of a line locate")]
    }

    /// The step from a point by the bins: where the velocity is asked for after the point itself.
    fn stages(&self, p: Vec3, step: f64) -> Vec<Vec3> {
        let way = |p: Vec3| self.twin.velocity_at(p, &mut Vec::new()).map(|v| v / v.norm());
        let mut list = Vec::new();
        let mut last = way(p);
        for part in [0.5, 0.5, 1.0] {
            let Some(k) = last else { break };
            list.push(p + k * (step * part));
            last = way(list[list.len() - 1]);
        }
        list
    }
}

/// A rule for where a line ends.
trait Rule {
    /// What is kept of a line that runs on; `first` is the first seed of its request.
    fn kept(room: &Room, request: &[u64], first: Vec3, line: &[Vec3]) -> Vec<Vec3>;
}

/// The points before the first whose zone is another than the first one's.
fn before(line: &[Vec3], zone: impl Fn(Vec3) -> u32) -> Vec<Vec3> {
    line.iter().copied().take_while(|p| zone(*p) == zone(line[0])).collect()
}

pub fn words(bytes: &[u8]) -> Vec<u64> {
    bytes.chunks_exact(8).map(|b| u64::from_le_bytes(b.try_into().unwrap())).collect()
}

/// The answer and the marks of one request alone.
pub fn alone(case: &[u8], request: &[u64], [words, floats, marks]: [usize; 3]) -> (Vec<u64>, Vec<u8>) {
    let bytes: Vec<u8> = request.iter().flat_map(|word| word.to_le_bytes()).collect();
    let (mut words, mut floats) = (vec![0; words], vec![0.0; floats]);
    let (mut marks, mut answers) = (vec![0; marks], vec![0; 500_000]);
    let result = unsafe {
        hookyellow_job(
            case.as_ptr(), case.len(), bytes.as_ptr(), bytes.len(), words.as_mut_ptr(), words.len(),
            floats.as_mut_ptr(), floats.len(), marks.as_mut_ptr(), marks.len(), answers.as_mut_ptr(), answers.len(),
        )
    };
    assert_eq!((result, answers[0]), (0, 0), "the line of an answered request");
    (answers[2..2 + answers[1] as usize].to_vec(), marks)
}

/// The words of a line request by a rule.
fn answer<R: Rule>(room: &Room, case: &[u8], request: &[u64], lens: [usize; 3]) -> Vec<u64> {
    let code = request[0];
    let sheet = by_bins(code) == 13;
    let mut ask = request.to_vec();
    ask[0] = match code {
        13 => 3,
        14 => 11,
        _ => code,
    };
    let full = alone(case, &ask, lens).0;
    let point = |p: &[u64]| Vec3::new(f64::from_bits(p[0]), f64::from_bits(p[1]), f64::from_bits(p[2]));
    let first = point(&request[1..]);
    let mut list = if by_bins(code) == 4 { vec![full[0]] } else { Vec::new() };
    for line in lines(ask[0], &full) {
        let line: Vec<Vec3> = line.chunks_exact(3).map(point).collect();
        let kept = R::kept(room, request, first, &line);
        if sheet {
            let mut flat: Vec<_> = kept.iter().map(|p| [p.x, p.y].map(|x| millimetres(x, false) as u64)).collect();
            flat.dedup();
            list.push(flat.len() as u64);
            list.extend(flat.concat());
        } else {
            list.push(kept.len() as u64);
            list.extend(kept.iter().flat_map(|p| [p.x, p.y, p.z].map(bits)));
        }
    }
    list
}

/// The job with lines by a rule. Of an answer of another length the words that both have are
/// changed: the count of the first line that differs is among them.
unsafe extern "C" fn ruled<R: Rule>(
    a: *const u8, an: usize, b: *const u8, bn: usize, c: *mut u32, cn: usize,
    d: *mut f64, dn: usize, e: *mut u8, en: usize, g: *mut u64, gn: usize,
) -> u64 {
    let result = hookyellow_job(a, an, b, bn, c, cn, d, dn, e, en, g, gn);
    let (case, requests, answers) = (from_raw_parts(a, an), from_raw_parts(b, bn), from_raw_parts_mut(g, gn));
    let (true, Some(room)) = (result == 0, Room::of(case)) else { return result };
    let first = first_edition(case).expect("an edition 2 file");
    let mut at = 0;
    for request in requests.chunks_exact(128).map(words) {
        let n = answers[at + 1] as usize;
        if [3, 4, 13].contains(&by_bins(request[0])) && n > 0 {
            let list = answer::<R>(&room, &first, &request, [cn, dn, en]);
            let kept = n.min(list.len());
            answers[at + 2..at + 2 + kept].copy_from_slice(&list[..kept]);
        }
        at += 2 + n;
    }
    result
}

/// A wrong rule is seen in an answer.
fn seen<R: Rule>() {
    let why = first_difference_in(Mode::Zones, ruled::<R>).2;
    assert!(why.contains("answer of request") && why.contains("): word "), "{why}");
}

macro_rules! rules {
    ($($(#[$about:meta])* $name:ident |$room:ident, $request:ident, $first:ident, $line:ident| $kept:expr;)*) => {
        $($(#[$about])* struct $name;
        impl Rule for $name {
            fn kept($room: &Room, $request: &[u64], $first: Vec3, $line: &[Vec3]) -> Vec<Vec3> {
                $kept
            }
        })*
    };
}

rules! {
    /// 02's rule.
    Right |room, request, _first, line| before(line, |p| room.zone(request[0], p));
    RunsOn |_room, _request, _first, line| line.to_vec();
    /// The first point in the other zone belongs to the line.
    OneMore |room, request, _first, line| {
        let n = before(line, |p| room.zone(request[0], p)).len();
        line[..line.len().min(n + 1)].to_vec()
    };
    /// Points in another zone are left out, and the line goes on.
    LeftOut |room, request, _first, line| {
        let zone = |p: Vec3| room.zone(request[0], p);
        line.iter().copied().filter(|p| zone(*p) == zone(line[0])).collect()
    };
    /// By the bins for codes 11, 12 and 14, among all cells for 3, 4 and 13.
    OtherLocator |room, request, _first, line| {
        let bins = by_bins(request[0]) == request[0];
        let cell = |p: Vec3| if bins { room.around(p).next() } else { room.twin.locate(p) };
        before(line, |p| cell(p).map_or(u32::MAX, |cell| room.zones[cell]))
    };
    /// Every line of a rake by the rake's first seed.
    FirstSeed |room, request, first, line| {
        let same = |p: &Vec3| room.zone(request[0], *p) == room.zone(request[0], first);
        let mut kept: Vec<Vec3> = line.iter().copied().take_while(same).collect();
        kept.extend((kept.is_empty()).then_some(line[0]));
        kept
    };
    ForwardAlone |room, request, first, line| {
        let backward = request[if by_bins(request[0]) == 4 { 8 } else { 4 }] == 1;
        if backward { line.to_vec() } else { Right::kept(room, request, first, line) }
    };
    PointsAlone |room, request, first, line| {
        if by_bins(request[0]) == 13 { line.to_vec() } else { Right::kept(room, request, first, line) }
    };
    StreamlinesAlone |room, request, first, line| {
        if by_bins(request[0]) == 4 { line.to_vec() } else { Right::kept(room, request, first, line) }
    };
    BinsAlone |room, request, first, line| {
        if by_bins(request[0]) != request[0] { line.to_vec() } else { Right::kept(room, request, first, line) }
    };
    /// Zone 0 is open to all others.
    OpenZero |room, request, _first, line| {
        let zone = |p: Vec3| room.zone(request[0], p);
        line.iter().copied().take_while(|p| zone(*p) == 0 || zone(*p) == zone(line[0])).collect()
    };
    /// Zones are compared by their lower seven bits.
    SevenBits |room, request, _first, line| before(line, |p| room.zone(request[0], p) & 127);
    /// The zone of the highest cell that contains the point.
    Highest |room, _request, _first, line| before(line, |p| room.zones[room.around(p).next_back().expect("located")]);
    /// On a border the line goes on for as long as any cell there is of its zone.
    AnyCell |room, request, _first, line| {
        let home = room.zone(request[0], line[0]);
        line.iter().copied().take_while(|p| room.around(*p).any(|cell| room.zones[cell] == home)).collect()
    };
    /// A step whose stage points leave the zone ends the line too (by the bins).
    StagesToo |room, request, first, line| {
        let kept = Right::kept(room, request, first, line);
        if by_bins(request[0]) != request[0] {
            return kept;
        }
        let at = if request[0] == 4 { 8 } else { 4 };
        let step = f64::from_bits(request[at + 1]) * if request[at] == 1 { -1.0 } else { 1.0 };
        let home = room.zone(request[0], line[0]);
        let same = |p: &Vec3| room.twin.locate(*p).is_none_or(|cell| room.zones[cell] == home);
        let steps = kept.windows(2).take_while(|pair| room.stages(pair[0], step).iter().all(same)).count();
        kept[..steps + 1].to_vec()
    };
}

#[test]
fn lines_that_end_elsewhere() {
    seen::<RunsOn>();
    seen::<OneMore>();
    seen::<LeftOut>();
    seen::<StagesToo>();
}

#[test]
fn zones_of_another_point_or_cell() {
    seen::<OtherLocator>();
    seen::<FirstSeed>();
    seen::<Highest>();
    seen::<AnyCell>();
}

#[test]
fn zones_for_some_requests_alone() {
    seen::<ForwardAlone>();
    seen::<PointsAlone>();
    seen::<StreamlinesAlone>();
    seen::<BinsAlone>();
}

#[test]
fn zones_compared_otherwise() {
    seen::<OpenZero>();
    seen::<SevenBits>();
}

/// The rules above differ from the library where they are wrong and nowhere else.
#[test]
#[should_panic(expected = "5,000 pairs do not show the fault")]
fn the_right_rule_is_not_seen() {
    first_difference_in(Mode::Zones, ruled::<Right>);
}

//! Document 01, "Book and journey": their layouts (7, 8; 9 to 12) and what a load keeps of them. Bit 7 of a point:
//! document 02, Q-5.

use crate::numbers::{within, Numbers};

const LENGTH_MOST: u32 = 16_777_214;
const NIDTP_MOST: u32 = 0xFFFF_FFFE;
/// NID_ATOTS where none is known.
pub const NO_ATOTS: u16 = 16_384;

/// A segment record of the book; its points (10 bytes each) and zones (8 bytes each) stay in the lent bytes.
#[derive(Clone, Copy)]
struct Record<'a> {
    nidc: u16,
    nidsp: u32,
    length: u32,
    points: &'a [u8],
    zones: &'a [u8],
}

impl<'a> Record<'a> {
    const EMPTY: Record<'static> = Record { nidc: 0, nidsp: 0, length: 0, points: &[], zones: &[] };

    fn read(from: &mut Numbers<'a>) -> Option<Record<'a>> {
        let map = from.u8()?;
        if map & 0b1110_0111 != 0b0000_0111 {
            return None;
        }
        let nidc = within(from.u16()?, 0, 1023)?;
        let nidsp = from.u32()?;
        let length = within(from.u32()?, 1, LENGTH_MOST)?;
        let points = if map & 8 != 0 { read_record_points(from, length)? } else { &[] };
        let zones = if map & 16 != 0 { read_zones(from, length)? } else { &[] };
        Some(Record { nidc, nidsp, length, points, zones })
    }

    /// Place and R of the point with this name.
    fn find(&self, nidtp: u32) -> Option<(u32, u16)> {
        let name = nidtp.to_be_bytes();
        let point = self.points.chunks_exact(10).find(|point| point[..4] == name)?;
        let mut from = Numbers(&point[4..]);
        Some((from.u32()?, from.u16()?))
    }

    fn has_point_twice(&self) -> bool {
        let mut points = self.points.chunks_exact(10);
        while let Some(point) = points.next() {
            if points.clone().any(|other| other[..4] == point[..4]) {
                return true;
            }
        }
        false
    }
}

fn read_record_points<'a>(from: &mut Numbers<'a>, length: u32) -> Option<&'a [u8]> {
    let count = within(from.u8()?, 1, 16)?;
    let points = from.take(10 * usize::from(count))?;
    let mut rest = Numbers(points);
    while !rest.0.is_empty() {
        within(rest.u32()?, 0, NIDTP_MOST)?;
        within(rest.u32()?, 0, length)?;
        within(rest.u16()?, 0, 10_000)?;
    }
    Some(points)
}

fn read_zones<'a>(from: &mut Numbers<'a>, length: u32) -> Option<&'a [u8]> {
    let count = within(from.u8()?, 1, 4)?;
    let zones = from.take(8 * usize::from(count))?;
    let mut rest = Numbers(zones);
    while !rest.0.is_empty() {
        let start = rest.u32()?;
        within(rest.u32()?, start, length)?;
    }
    Some(zones)
}

/// A book that no row refuses.
pub struct Book<'a> {
    count: usize,
    records: [Record<'a>; 40],
}

impl<'a> Book<'a> {
    /// Number 7 for any record first, then 8.
    pub fn read(bytes: &'a [u8]) -> Result<Book<'a>, u8> {
        let mut book = Book { count: 0, records: [Record::EMPTY; 40] };
        let mut refused = false;
        let mut from = Numbers(bytes);
        while !from.0.is_empty() {
            let record = Record::read(&mut from).ok_or(7)?;
            refused |= book.count == 40 || record.has_point_twice();
            refused = refused || book.find(record.nidc, record.nidsp).is_some();
            if !refused {
                book.records[book.count] = record;
                book.count += 1;
            }
        }
        if refused {
            Err(8)
        } else {
            Ok(book)
        }
    }

    fn find(&self, nidc: u16, nidsp: u32) -> Option<&Record<'a>> {
        self.records[..self.count].iter().find(|record| record.nidsp == nidsp && record.nidc == nidc)
    }
}

/// A segment of the journey; `length` and zones are those of its record, if it is booked.
#[derive(Clone, Copy, PartialEq, Eq, Debug)]
pub struct Segment {
    pub nidc: u16,
    pub nidsp: u32,
    pub booked: bool,
    /// Counted from the journey's start, if placed.
    pub start: u32,
    pub length: u32,
    zone_count: u8,
    zones: [(u32, u32); 4],
}

impl Segment {
    const EMPTY: Segment =
        Segment { nidc: 0, nidsp: 0, booked: false, start: 0, length: 0, zone_count: 0, zones: [(0, 0); 4] };

    fn take_record(&mut self, record: &Record) {
        self.booked = true;
        self.length = record.length;
        self.zone_count = (record.zones.len() / 8) as u8;
        for (zone, bytes) in self.zones.iter_mut().zip(record.zones.chunks_exact(8)) {
            let mut from = Numbers(bytes);
            *zone = (from.u32().unwrap_or(0), from.u32().unwrap_or(0));
        }
    }

    /// Both ends are inside the zone.
    pub fn in_zone(&self, offset: u32) -> bool {
        self.zones[..usize::from(self.zone_count)].iter().any(|&(start, end)| start <= offset && offset <= end)
    }
}

/// A point of the journey; `place`, counted from the journey's start, and R are from the book, if placed.
#[derive(Clone, Copy, PartialEq, Eq, Debug)]
pub struct Point {
    pub nidtp: u32,
    pub place: u32,
    pub reach: u16,
    pub segment: u8,
    pub alignment: u8,
    pub stopping: u8,
    pub stop: bool,
    pub skipped: bool,
    pub end: bool,
    /// Dispatchers hold trains there.
    pub held: bool,
}

impl Point {
    const EMPTY: Point = Point {
        nidtp: 0,
        place: 0,
        reach: 0,
        segment: 0,
        alignment: 0,
        stopping: 0,
        stop: false,
        skipped: false,
        end: false,
        held: false,
    };

    fn read(from: &mut Numbers) -> Option<Point> {
        let map = from.u8()?;
        let stop = map & 16 != 0;
        let (skipped, held) = (map & 32 != 0, map & 128 != 0);
        if map & 0b11 != 0b11 || !stop && (skipped || held) {
            return None;
        }
        Some(Point {
            nidtp: within(from.u32()?, 0, NIDTP_MOST)?,
            segment: from.u8()?,
            alignment: if map & 4 != 0 { within(from.u8()?, 0, 2)? } else { 0 },
            stopping: if map & 8 != 0 { within(from.u8()?, 0, 127)? } else { 0 },
            stop,
            skipped,
            end: map & 64 != 0,
            held,
            ..Point::EMPTY
        })
    }
}

/// What only packet 65 tells of a journey.
#[derive(Clone, Copy)]
pub struct Stamp {
    pub atots: u16,
    pub date: u16,
    pub seconds: u32,
    pub counter: u8,
}

/// A journey with what the book says of it.
#[derive(Clone, Copy, PartialEq, Eq, Debug)]
pub struct Route {
    pub operational: u32,
    segment_count: u8,
    point_count: u8,
    /// So many segments, the first ones, are placed; so many points are.
    pub placed_segments: u8,
    pub placed_points: u8,
    /// Which point is the End of Journey.
    pub end: u8,
    segments: [Segment; 40],
    points: [Point; 64],
}

impl Route {
    pub const EMPTY: Route = Route {
        operational: 0,
        segment_count: 0,
        point_count: 0,
        placed_segments: 0,
        placed_points: 0,
        end: 0,
        segments: [Segment::EMPTY; 40],
        points: [Point::EMPTY; 64],
    };

    pub fn segments(&self) -> &[Segment] {
        &self.segments[..usize::from(self.segment_count)]
    }

    pub fn points(&self) -> &[Point] {
        &self.points[..usize::from(self.point_count)]
    }

    fn segments_mut(&mut self) -> &mut [Segment] {
        &mut self.segments[..usize::from(self.segment_count)]
    }

    fn points_mut(&mut self) -> &mut [Point] {
        &mut self.points[..usize::from(self.point_count)]
    }

    /// Fills an empty route. Numbers 9 to 12, each over the whole journey before the next.
    pub fn read(&mut self, journey: &[u8], book: &Book) -> Result<Stamp, u8> {
        let stamp = self.read_layout(&mut Numbers(journey)).ok_or(9)?;
        if self.has_segment_twice() {
            return Err(10);
        }
        let records = self.place_segments(book);
        self.check_points()?;
        self.place_points(&records)?;
        self.check_order()?;
        Ok(stamp)
    }

    fn read_layout(&mut self, from: &mut Numbers) -> Option<Stamp> {
        let map = from.u8()?;
        if map & 0b1111_1010 != 0b0001_1010 {
            return None;
        }
        self.operational = if map & 1 != 0 { from.u32()? } else { 0xFFFF_FFFF };
        let date = within(from.u16()?, 0, 32_767)?;
        let (seconds, counter) = (from.u32()?, from.u8()?);
        let atots = if map & 4 != 0 { within(from.u16()?, 0, 16_383)? } else { NO_ATOTS };
        self.segment_count = within(from.u8()?, 1, 40)?;
        for segment in self.segments_mut() {
            segment.nidc = within(from.u16()?, 0, 1023)?;
            segment.nidsp = from.u32()?;
        }
        self.point_count = within(from.u8()?, 1, 64)?;
        for point in self.points_mut() {
            *point = Point::read(from)?;
        }
        from.0.is_empty().then_some(Stamp { atots, date, seconds, counter })
    }

    fn has_segment_twice(&self) -> bool {
        let segments = self.segments();
        (1..segments.len()).any(|k| {
            let Segment { nidc, nidsp, .. } = segments[k];
            segments[..k].iter().any(|other| other.nidsp == nidsp && other.nidc == nidc)
        })
    }

    /// Places the segments and gives the record of each that is booked.
    fn place_segments<'a>(&mut self, book: &'a Book<'a>) -> [Option<&'a Record<'a>>; 40] {
        let mut records = [None; 40];
        let (mut start, mut placed, mut all_booked) = (0, 0, true);
        for (segment, found) in self.segments_mut().iter_mut().zip(&mut records) {
            *found = book.find(segment.nidc, segment.nidsp);
            match *found {
                Some(record) => segment.take_record(record),
                None => all_booked = false,
            }
            if all_booked {
                segment.start = start;
                start += segment.length;
                placed += 1;
            }
        }
        self.placed_segments = placed;
        records
    }

    /// Number 11, but for the book's part: index beyond, NID_TP twice, not just one End of Journey.
    fn check_points(&mut self) -> Result<(), u8> {
        let points = self.points();
        let mut ends = 0;
        for (k, point) in points.iter().enumerate() {
            let twice = points[..k].iter().any(|other| other.nidtp == point.nidtp);
            if point.segment >= self.segment_count || twice {
                return Err(11);
            }
            ends += usize::from(point.end);
        }
        self.end = points.iter().position(|point| point.end).ok_or(11)? as u8;
        if ends == 1 {
            Ok(())
        } else {
            Err(11)
        }
    }

    /// Number 11, the book's part: a booked segment without the point.
    fn place_points(&mut self, records: &[Option<&Record>; 40]) -> Result<(), u8> {
        for point in &mut self.points[..usize::from(self.point_count)] {
            let Some(record) = records[usize::from(point.segment)] else { continue };
            let (place, reach) = record.find(point.nidtp).ok_or(11)?;
            if point.segment < self.placed_segments {
                point.place = self.segments[usize::from(point.segment)].start + place;
                point.reach = reach;
            }
        }
        Ok(())
    }

    /// Number 12. As no index falls, the placed points are the first ones.
    fn check_order(&mut self) -> Result<(), u8> {
        let points = self.points();
        let placed = points.iter().take_while(|point| point.segment < self.placed_segments).count();
        if points.windows(2).any(|pair| pair[0].segment > pair[1].segment)
            || points[..placed].windows(2).any(|pair| pair[0].place >= pair[1].place)
        {
            return Err(12);
        }
        self.placed_points = placed as u8;
        Ok(())
    }

    pub fn find_segment(&self, nidc: u16, nidsp: u32) -> Option<usize> {
        self.segments().iter().position(|segment| segment.nidsp == nidsp && segment.nidc == nidc)
    }

    /// It has a held stop of that name, of whatever country.
    pub fn holds(&self, nidtp: u32) -> bool {
        self.points().iter().any(|point| point.nidtp == nidtp && point.held)
    }

    pub fn find_stop(&self, nidtp: u32) -> Option<usize> {
        self.points().iter().position(|point| point.stop && point.nidtp == nidtp)
    }
}

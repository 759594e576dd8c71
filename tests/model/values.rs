//! Books and journeys as values: written to bytes, and read back where the layout is right.
//! Nothing is checked for range, so that wrong ones can be written too.

use crate::numbers::Numbers;

#[derive(Clone, PartialEq, Eq, Debug)]
pub struct RecordPoint {
    pub nidtp: u32,
    pub place: u32,
    pub reach: u16,
}

#[derive(Clone, PartialEq, Eq, Debug, Default)]
pub struct Record {
    /// Map bits written the wrong way, the fields following the map so written.
    pub flip: u8,
    /// Map bits written the wrong way, the fields as they should be.
    pub flip_map: u8,
    pub nidc: u16,
    pub nidsp: u32,
    pub length: u32,
    pub points: Vec<RecordPoint>,
    pub zones: Vec<(u32, u32)>,
}

#[derive(Clone, PartialEq, Eq, Debug, Default)]
pub struct JourneyPoint {
    pub flip: u8,
    pub flip_map: u8,
    pub nidtp: u32,
    pub segment: u8,
    pub alignment: Option<u8>,
    pub stopping: Option<u8>,
    pub stop: bool,
    pub skipped: bool,
    pub end: bool,
    pub held: bool,
}

#[derive(Clone, PartialEq, Eq, Debug, Default)]
pub struct Journey {
    pub flip: u8,
    pub flip_map: u8,
    pub operational: Option<u32>,
    pub date: u16,
    pub seconds: u32,
    pub counter: u8,
    pub atots: Option<u16>,
    pub segments: Vec<(u16, u32)>,
    pub points: Vec<JourneyPoint>,
}

fn bits(flags: [bool; 8]) -> u8 {
    (0..8).map(|k| u8::from(flags[k]) << k).sum()
}

impl Record {
    /// NID_C and NID_SP.
    pub fn segment(&self) -> (u16, u32) {
        (self.nidc, self.nidsp)
    }

    pub fn write(&self, to: &mut Vec<u8>) {
        let (points, zones) = (!self.points.is_empty(), !self.zones.is_empty());
        let map = self.flip ^ bits([true, true, true, points, zones, false, false, false]);
        to.push(map ^ self.flip_map);
        if map & 1 != 0 {
            to.extend(self.nidc.to_be_bytes());
        }
        if map & 2 != 0 {
            to.extend(self.nidsp.to_be_bytes());
        }
        if map & 4 != 0 {
            to.extend(self.length.to_be_bytes());
        }
        if map & 8 != 0 {
            self.write_points(to);
        }
        if map & 16 != 0 {
            self.write_zones(to);
        }
    }

    fn write_points(&self, to: &mut Vec<u8>) {
        to.push(self.points.len() as u8);
        for point in &self.points {
            to.extend(point.nidtp.to_be_bytes());
            to.extend(point.place.to_be_bytes());
            to.extend(point.reach.to_be_bytes());
        }
    }

    fn write_zones(&self, to: &mut Vec<u8>) {
        to.push(self.zones.len() as u8);
        for (start, end) in &self.zones {
            to.extend(start.to_be_bytes());
            to.extend(end.to_be_bytes());
        }
    }

    fn read(from: &mut Numbers) -> Option<Record> {
        let map = from.u8()?;
        let mut record = Record { nidc: from.u16()?, nidsp: from.u32()?, length: from.u32()?, ..Record::default() };
        let count = if map & 8 != 0 { from.u8()? } else { 0 };
        for _ in 0..count {
            record.points.push(RecordPoint { nidtp: from.u32()?, place: from.u32()?, reach: from.u16()? });
        }
        let count = if map & 16 != 0 { from.u8()? } else { 0 };
        for _ in 0..count {
            record.zones.push((from.u32()?, from.u32()?));
        }
        (map & 0xE7 == 7).then_some(record)
    }
}

pub fn write_book(records: &[Record]) -> Vec<u8> {
    let mut bytes = Vec::new();
    records.iter().for_each(|record| record.write(&mut bytes));
    bytes
}

pub fn read_book(bytes: &[u8]) -> Option<Vec<Record>> {
    let mut from = Numbers(bytes);
    let mut records = Vec::new();
    while !from.0.is_empty() {
        records.push(Record::read(&mut from)?);
    }
    Some(records)
}

impl JourneyPoint {
    fn write(&self, to: &mut Vec<u8>) {
        let (alignment, stopping) = (self.alignment.is_some(), self.stopping.is_some());
        let map = bits([true, true, alignment, stopping, self.stop, self.skipped, self.end, self.held]) ^ self.flip;
        to.push(map ^ self.flip_map);
        if map & 1 != 0 {
            to.extend(self.nidtp.to_be_bytes());
        }
        if map & 2 != 0 {
            to.push(self.segment);
        }
        if map & 4 != 0 {
            to.push(self.alignment.unwrap_or(0));
        }
        if map & 8 != 0 {
            to.push(self.stopping.unwrap_or(0));
        }
    }

    fn read(from: &mut Numbers) -> Option<JourneyPoint> {
        let map = from.u8()?;
        let point = JourneyPoint {
            nidtp: from.u32()?,
            segment: from.u8()?,
            alignment: if map & 4 != 0 { Some(from.u8()?) } else { None },
            stopping: if map & 8 != 0 { Some(from.u8()?) } else { None },
            stop: map & 16 != 0,
            skipped: map & 32 != 0,
            end: map & 64 != 0,
            held: map & 128 != 0,
            ..JourneyPoint::default()
        };
        (map & 3 == 3).then_some(point)
    }
}

impl Journey {
    pub fn write(&self) -> Vec<u8> {
        let (operational, atots) = (self.operational.is_some(), self.atots.is_some());
        let map = bits([operational, true, atots, true, true, false, false, false]) ^ self.flip;
        let mut to = vec![map ^ self.flip_map];
        if map & 1 != 0 {
            to.extend(self.operational.unwrap_or(0).to_be_bytes());
        }
        if map & 2 != 0 {
            to.extend(self.date.to_be_bytes());
            to.extend(self.seconds.to_be_bytes());
            to.push(self.counter);
        }
        if map & 4 != 0 {
            to.extend(self.atots.unwrap_or(0).to_be_bytes());
        }
        if map & 8 != 0 {
            to.push(self.segments.len() as u8);
            for (nidc, nidsp) in &self.segments {
                to.extend(nidc.to_be_bytes());
                to.extend(nidsp.to_be_bytes());
            }
        }
        if map & 16 != 0 {
            to.push(self.points.len() as u8);
            self.points.iter().for_each(|point| point.write(&mut to));
        }
        to
    }

    pub fn read(bytes: &[u8]) -> Option<Journey> {
        let mut from = Numbers(bytes);
        let map = from.u8()?;
        let mut journey = Journey {
            operational: if map & 1 != 0 { Some(from.u32()?) } else { None },
            date: from.u16()?,
            seconds: from.u32()?,
            counter: from.u8()?,
            atots: if map & 4 != 0 { Some(from.u16()?) } else { None },
            ..Journey::default()
        };
        for _ in 0..from.u8()? {
            journey.segments.push((from.u16()?, from.u32()?));
        }
        for _ in 0..from.u8()? {
            journey.points.push(JourneyPoint::read(&mut from)?);
        }
        (map & 0xFA == 0x1A && from.0.is_empty()).then_some(journey)
    }
}

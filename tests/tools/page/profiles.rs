//! The tables of segment record, journey and point: widths, ranges, maps, and what absent fields mean.

use crate::engines::{packets_of, play, refusal};
use crate::text::{bounds, in_range, number_of, put, same, wrong, Checked, Page, Row};
use model::calls::Call;
use proved::pair::Pair;
use std::collections::BTreeMap;

type Values<'a> = BTreeMap<&'a str, i64>;

struct Field<'a> {
    line: usize,
    bit: u8,
    /// Whether it comes as many times as the count of its bit says.
    each: bool,
    name: &'a str,
    /// `None` for a field that has a map of its own, 0 for a bit that carries no field.
    width: Option<usize>,
    /// Numbers, or names of other fields.
    ends: Option<(&'a str, &'a str)>,
    absent: &'a str,
}

struct Layout<'a> {
    line: usize,
    fields: Vec<Field<'a>>,
    /// The number that refuses what is not laid out so.
    number: u8,
    /// The bits that stand where nothing else is tried.
    map: u8,
}

fn field_of<'a>(row: &Row<'a>) -> Checked<Field<'a>> {
    let (bit, each) = row.each("Bit")?;
    if bit > 7 {
        return wrong(row.line, "no bit of a map");
    }
    let width = if row.text("Width")?.is_empty() { None } else { Some(row.width()?) };
    let ends = if row.text("Range")?.is_empty() { None } else { Some(row.ends("Range")?) };
    if width.is_some_and(|width| width > 0) != ends.is_some() {
        return wrong(row.line, "a range without a width, or a width without a range");
    }
    let (name, absent) = (row.text("Field")?, row.text("When the bit is 0")?);
    Ok(Field { line: row.line, bit: bit as u8, each, name, width, ends, absent })
}

fn layout_of<'a>(page: &'a Page, heading: &str, number: u8, map: u8) -> Checked<Layout<'a>> {
    let rows = page.table(heading, "Bit")?;
    let fields = rows.iter().map(field_of).collect::<Checked<Vec<Field>>>()?;
    let mut next = 0;
    for field in &fields {
        if field.bit != next && field.bit + 1 != next {
            return wrong(field.line, "bits do not go up one by one from 0");
        }
        next = field.bit + 1;
    }
    Ok(Layout { line: rows[0].line, fields, number, map })
}

impl<'a> Layout<'a> {
    /// Each number at its lowest, but for room below the length, and a zone that has room before it.
    fn values(&self) -> Values<'a> {
        let value = |field: &Field<'a>| match field.name {
            "length" => Some(1000),
            "start" | "end" => Some(1),
            _ => field.ends.and_then(|(low, _)| number_of(low)),
        };
        self.fields.iter().filter_map(|field| Some((field.name, value(field)?))).collect()
    }

    /// The fields of the map's bits, from bit 0 up; `inner` stands for a field with a map of its own.
    fn write(&self, map: u8, values: &Values, inner: &[u8]) -> Vec<u8> {
        let mut bytes = vec![map];
        let put_field = |field: &Field, to: &mut Vec<u8>| match field.width {
            None => to.extend(inner),
            Some(0) => {}
            Some(width) => put(values[field.name], width, to),
        };
        for bit in (0..8).filter(|bit| map >> bit & 1 == 1) {
            let of_bit = |each| self.fields.iter().filter(move |field| field.bit == bit && field.each == each);
            of_bit(false).for_each(|field| put_field(field, &mut bytes));
            if of_bit(true).next().is_some() {
                let count = of_bit(false).next().and_then(|count| values.get(count.name)).copied().unwrap_or(0);
                (0..count).for_each(|_| of_bit(true).for_each(|field| put_field(field, &mut bytes)));
            }
        }
        bytes
    }

    /// The end of a range: a number, or the value of the field that it names.
    fn end(&self, field: &Field, text: &str, values: &Values) -> Checked<i64> {
        match number_of(text).or_else(|| values.get(text).copied()) {
            Some(end) => Ok(end),
            None => wrong(field.line, format!("'{text}' is no field")),
        }
    }

    fn check_ranges(&self, tried: &Tried) -> Checked<()> {
        for field in &self.fields {
            let (Some((low, high)), Some(width)) = (field.ends, field.width) else { continue };
            let usual = self.values();
            let (low, high) = (self.end(field, low, &usual)?, self.end(field, high, &usual)?);
            for (value, inside) in bounds(field.line, low, high, 8 * width)? {
                let mut values = self.values();
                values.insert(field.name, value);
                let bytes = self.write(self.map, &values, tried.inner);
                in_range(field.line, value, inside, tried.number(&bytes, field.line)? == self.number)?;
            }
        }
        Ok(())
    }

    /// Bits that must stand, that may, and that must not.
    fn check_map(&self, tried: &Tried) -> Checked<()> {
        for bit in 0..8 {
            let field = self.fields.iter().find(|field| field.bit == bit);
            let map = self.map ^ 1 << bit;
            let refused = match field {
                None => true,
                Some(field) => self.map >> bit & 1 == 1 && field.absent == "refused",
            };
            let line = field.map_or(self.line, |field| field.line);
            let bytes = self.write(map, &self.values(), tried.inner);
            if (tried.number(&bytes, line)? == self.number) != refused {
                let taken = if refused { "taken" } else { "refused" };
                return wrong(line, format!("the map {map:02X} is {taken}"));
            }
        }
        Ok(())
    }

    /// As it is usually, a byte shorter, and with a byte behind.
    fn check_length(&self, tried: &Tried) -> Checked<()> {
        let bytes = self.write(self.map, &self.values(), tried.inner);
        let longer = [&bytes[..], &[0]].concat();
        for (bytes, what) in [(&bytes[..bytes.len() - 1], "a byte less"), (&longer, "a byte more")] {
            if tried.number(bytes, self.line)? != self.number {
                return wrong(self.line, format!("laid out as in the table, {what} is taken"));
            }
        }
        match tried.number(&bytes, self.line)? == self.number {
            true => wrong(self.line, "laid out as in the table, with values in the ranges, it is refused"),
            false => Ok(()),
        }
    }

    fn check(&self, tried: &Tried) -> Checked<()> {
        self.check_length(tried)?;
        self.check_ranges(tried)?;
        self.check_map(tried)
    }
}

/// How bytes of a layout are lent, and what stands for a field with a map of its own.
struct Tried<'a> {
    engine: &'a Pair,
    inner: &'a [u8],
    lend: &'a dyn Fn(&[u8]) -> Call,
}

impl Tried<'_> {
    fn number(&self, bytes: &[u8], line: usize) -> Checked<u8> {
        refusal(self.engine, &(self.lend)(bytes), line)
    }
}

/// What the packets say of a journey that leaves out all that it may, where its one stop is reached.
fn check_defaults(record: &Layout, journey: &Layout, point: &Layout) -> Checked<()> {
    let stop_and_end = 0x53;
    let inner = point.write(stop_and_end, &point.values(), &[]);
    let load =
        Call::load(journey.write(0x1A, &journey.values(), &inner), record.write(record.map, &record.values(), &[]));
    let calls = [Call::power_on(), load, Call::position(0, 0, 0, 0)];
    let packets = packets_of(&calls, journey.line)?;
    let packet = |kind: u8| packets.iter().find(|packet| packet.kind == kind).copied().unwrap_or_default();
    for field in journey.fields.iter().chain(&point.fields) {
        let Some(absent) = number_of(field.absent) else { continue };
        let found: i64 = match field.name {
            "NID_OPERATIONAL" => packet(65).header.operational.into(),
            "NID_ATOTS" => packet(65).atots.into(),
            "alignment" => packet(62).alignment.into(),
            "stopping data" => packet(62).stopping.into(),
            other => return wrong(field.line, format!("'{other}' has no default")),
        };
        same(field.line, "absent", absent, found)?;
    }
    same(point.line, "stops reached", 1, packets.iter().filter(|packet| packet.status == 1).count())
}

/// The table of offsets of a journey's fields, from the widths of the fields.
fn check_offsets(page: &Page, journey: &Layout, tried: &Tried) -> Checked<()> {
    for row in page.table("Point of a journey", "Map")? {
        let Ok(map) = u8::from_str_radix(row.text("Map")?, 16) else { return wrong(row.line, "no map") };
        if tried.number(&journey.write(map, &journey.values(), tried.inner), row.line)? == journey.number {
            return wrong(row.line, format!("the map {map:02X} is refused"));
        }
        let mut at = 1;
        for field in journey.fields.iter().filter(|field| !field.each && field.bit < 4) {
            let column = if field.name == "count of segments" { "s" } else { field.name };
            if map >> field.bit & 1 == 0 {
                same(row.line, column, row.text(column)?, "")?;
                continue;
            }
            same(row.line, column, row.number(column)?, at)?;
            at += field.width.unwrap_or(0) as i64;
        }
    }
    Ok(())
}

/// How many fields there are.
pub fn check(page: &Page) -> Checked<usize> {
    let record = layout_of(page, "Segment record", 7, 0x1F)?;
    let journey = layout_of(page, "Journey", 9, 0x1F)?;
    let point = layout_of(page, "Point of a journey", 9, 0x5F)?;
    let mut engine = Pair::fresh();
    play(&mut engine, &[Call::power_on()], 1)?;
    let inner = point.write(point.map, &point.values(), &[]);
    let lend_book = |bytes: &[u8]| Call::load(Vec::new(), bytes.to_vec());
    let lend_journey = |bytes: &[u8]| Call::load(bytes.to_vec(), Vec::new());
    let lend_point = |bytes: &[u8]| lend_journey(&journey.write(journey.map, &journey.values(), bytes));
    record.check(&Tried { engine: &engine, inner: &[], lend: &lend_book })?;
    let tried = Tried { engine: &engine, inner: &inner, lend: &lend_journey };
    journey.check(&tried)?;
    check_offsets(page, &journey, &tried)?;
    point.check(&Tried { engine: &engine, inner: &[], lend: &lend_point })?;
    for (map, bit) in [(0x2F, 5), (0x8F, 7)] {
        let alone = lend_point(&point.write(map, &point.values(), &[]));
        same(point.line, &format!("bit {bit} without bit 4: number"), 9, refusal(&engine, &alone, point.line)?)?;
    }
    check_defaults(&record, &journey, &point)?;
    Ok(record.fields.len() + journey.fields.len() + point.fields.len())
}

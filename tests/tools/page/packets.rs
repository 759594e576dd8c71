//! The tables of packets: sizes, and each field's bits, range and name in the answer of the reader.

use crate::text::{bounds, in_range, same, wrong, Checked, Page, Row};
use model::adhesion::CONSTRAINTS_MOST;
use model::packets::Packet;
use proved::hollwern::{front_size, read, read_constraint, Constraint, PacketFields};

/// What the reader calls the count of rows.
const COUNT: &str = "constraint_count";

struct Field<'a> {
    line: usize,
    name: &'a str,
    /// Which row of the packet it is in.
    row: Option<usize>,
    /// How many bits from the packet's last one on, taken as one number, its least and its most significant bit stand.
    low_bit: usize,
    bits: usize,
    range: Option<(i64, i64)>,
}

/// A packet with so many rows.
struct Layout<'a> {
    line: usize,
    number: u8,
    size: usize,
    rows: usize,
    fields: Vec<Field<'a>>,
}

/// What the reader answers under the name.
fn value_in(packet: &PacketFields, name: &str) -> Option<i64> {
    let header = packet.header;
    Some(match name {
        "kind" => packet.kind.into(),
        "header.nidc" => header.nidc.into(),
        "header.nidsp" => header.nidsp.into(),
        "header.offset" => header.offset.into(),
        "header.speed" => header.speed.into(),
        "header.operational" => header.operational.into(),
        "nidc" => packet.nidc.into(),
        "nidtp" => packet.nidtp.into(),
        "q_eoj_reached" => packet.q_eoj_reached.into(),
        "alignment" => packet.alignment.into(),
        "status" => packet.status.into(),
        "stopping" => packet.stopping.into(),
        "atots" => packet.atots.into(),
        "date" => packet.date.into(),
        "seconds" => packet.seconds.into(),
        "counter" => packet.counter.into(),
        "state" => packet.state.into(),
        "conditions" => packet.conditions.into(),
        "m_ato_trabrrq" => packet.m_ato_trabrrq.into(),
        "m_ato_locobrrq" => packet.m_ato_locobrrq.into(),
        "q_ato_suptb" => packet.q_ato_suptb.into(),
        "m_ato_rtbrq" => packet.m_ato_rtbrq.into(),
        COUNT => packet.constraint_count.into(),
        _ => return None,
    })
}

/// What the reader answers of a row under the name.
fn value_in_row(row: &Constraint, name: &str) -> Option<i64> {
    Some(match name {
        "nidc" => row.nidc.into(),
        "nidsp" => row.nidsp.into(),
        "category" => row.category.into(),
        "range" => row.range.into(),
        "start" => row.start.into(),
        "end" => row.end.into(),
        _ => return None,
    })
}

/// The field of a packet so long that stands at that offset.
fn field_of<'a>(row: &Row<'a>, of_row: Option<usize>, offset: usize, size: usize) -> Checked<Field<'a>> {
    let width = row.width()?;
    let end = offset + width;
    let (low, high) = row.range("Bits")?;
    if end > size || low < 0 || high < low || high >= 8 * width as i64 {
        return wrong(row.line, "the field is not within the packet");
    }
    let range = if row.text("Range")?.is_empty() { None } else { Some(row.range("Range")?) };
    let (low_bit, bits) = (8 * (size - end) + low as usize, (high - low + 1) as usize);
    Ok(Field { line: row.line, name: row.text("Read as")?, row: of_row, low_bit, bits, range })
}

fn layout_of<'a>(page: &'a Page, row: &Row<'a>, rows: usize) -> Checked<Layout<'a>> {
    let (number, bytes) = (row.number_to("Packet", 255)? as u8, row.size("Bytes")?);
    let size = bytes.with(rows);
    let mut fields = Vec::new();
    for heading in ["Header".to_string(), format!("Packet {number}")] {
        for row in page.table(&heading, "Offset")? {
            match row.each("Offset")? {
                (offset, false) => fields.push(field_of(&row, None, offset, size)?),
                _ if bytes.row == 0 => return wrong(row.line, "the packet has no rows"),
                (offset, true) => {
                    for k in 0..rows {
                        fields.push(field_of(&row, Some(k), offset + k * bytes.row, size)?);
                    }
                }
            }
        }
    }
    Ok(Layout { line: row.line, number, size, rows, fields })
}

/// How many rows are tried of a packet.
fn counts_of(row: &Row) -> Checked<&'static [usize]> {
    Ok(if row.size("Bytes")?.row == 0 { &[0] } else { &[0, 1, 2, CONSTRAINTS_MOST] })
}

impl Field<'_> {
    fn put(&self, value: i64, to: &mut [u8]) {
        for k in 0..self.bits {
            let bit = self.low_bit + k;
            let byte = to.len() - 1 - bit / 8;
            to[byte] = to[byte] & !(1 << (bit % 8)) | (((value >> k & 1) as u8) << (bit % 8));
        }
    }
}

/// The number that refuses the bytes, 0 where they are read, and what is read; the model's reader answers alike.
fn reading(bytes: &[u8], line: usize) -> Checked<PacketFields> {
    let found = read(bytes);
    same(line, "the model reads with number", Packet::read(bytes).err().unwrap_or(0), found.number)?;
    Ok(found)
}

impl Layout<'_> {
    /// The field's value where another one is tried. With status 1 stopping data may be other than 0, and before the
    /// highest end stands any start.
    fn usual(&self, field: &Field) -> i64 {
        match (field.name, field.range) {
            ("kind", _) => self.number.into(),
            (COUNT, _) => self.rows as i64,
            ("status", Some((0, high))) => high.min(1),
            ("end", Some((_, high))) => high,
            (_, range) => range.map_or(0, |(low, _)| low),
        }
    }

    /// Every bit of the packet is in just one field.
    fn check_cover(&self) -> Checked<()> {
        let mut seen = vec![false; 8 * self.size];
        for field in &self.fields {
            for bit in &mut seen[field.low_bit..field.low_bit + field.bits] {
                if std::mem::replace(bit, true) {
                    return wrong(field.line, "bits that another field has already");
                }
            }
        }
        match seen.iter().rposition(|seen| !seen) {
            None => Ok(()),
            Some(bit) => wrong(self.line, format!("no field has offset {}", self.size - 1 - bit / 8)),
        }
    }

    fn bytes(&self) -> Vec<u8> {
        let mut bytes = vec![0; self.size];
        self.fields.iter().for_each(|field| field.put(self.usual(field), &mut bytes));
        bytes
    }

    /// But for the count, which goes with the packet's length.
    fn check_field(&self, field: &Field) -> Checked<()> {
        let Some((low, high)) = field.range.filter(|_| field.name != COUNT) else { return Ok(()) };
        for (value, inside) in bounds(field.line, low, high, field.bits)? {
            let mut bytes = self.bytes();
            field.put(value, &mut bytes);
            let packet = reading(&bytes, field.line)?;
            in_range(field.line, value, inside, packet.number == 19)?;
            if inside {
                self.check_read(&bytes, &packet, field, value)?;
            }
        }
        Ok(())
    }

    /// The value is read under the field's name, and every other field as it was.
    fn check_read(&self, bytes: &[u8], packet: &PacketFields, changed: &Field, value: i64) -> Checked<()> {
        for field in self.fields.iter().filter(|field| !field.name.is_empty()) {
            let is_changed = (field.line, field.row) == (changed.line, changed.row);
            let expected = if is_changed { value } else { self.usual(field) };
            let found = match field.row {
                Some(k) => value_in_row(&read_constraint(bytes, k), field.name),
                None => value_in(packet, field.name),
            };
            match found {
                None => return wrong(field.line, format!("the reader has no '{}'", field.name)),
                Some(found) => same(changed.line, field.name, expected, found)?,
            }
        }
        Ok(())
    }

    fn check_size(&self) -> Checked<()> {
        let bytes = self.bytes();
        let longer = [&bytes[..], &[0]].concat();
        for bytes in [&bytes[..self.size - 1], &longer] {
            same(self.line, "a byte more or less: number", 17, reading(bytes, self.line)?.number)?;
            same(self.line, "the bytes in front", self.size.min(bytes.len()), front_size(bytes))?;
            self.check_blank(bytes, 0)?;
        }
        same(self.line, "the packet's bytes", self.size, reading(&bytes, self.line)?.size)?;
        self.check_blank(&bytes, self.rows)
    }

    fn check_blank(&self, bytes: &[u8], k: usize) -> Checked<()> {
        if read_constraint(bytes, k) == Constraint::default() {
            Ok(())
        } else {
            wrong(self.line, format!("row {k} is not blank"))
        }
    }

    fn check(&self) -> Checked<()> {
        self.check_cover()?;
        self.check_size()?;
        self.fields.iter().try_for_each(|field| self.check_field(field))
    }
}

/// The count at the ends of its range and next to them, with as many rows; a length that does not fit it is 17 first.
fn check_count(page: &Page, row: &Row) -> Checked<()> {
    let layout = layout_of(page, row, 0)?;
    let Some(field) = layout.fields.iter().find(|field| field.name == COUNT) else { return Ok(()) };
    let Some((low, high)) = field.range else { return wrong(field.line, "a count without a range") };
    for (value, inside) in bounds(field.line, low, high, field.bits)? {
        let bytes = layout_of(page, row, value as usize)?.bytes();
        in_range(field.line, value, inside, reading(&bytes, field.line)?.number == 19)?;
        let shorter = reading(&bytes[..bytes.len() - 1], field.line)?;
        same(field.line, "a byte less: number", 17, shorter.number)?;
    }
    Ok(())
}

/// How many packets there are.
pub fn check(page: &Page) -> Checked<usize> {
    let rows = page.table("Sizes", "Packet")?;
    let mut numbers = Vec::new();
    for row in &rows {
        for &count in counts_of(row)? {
            layout_of(page, row, count)?.check()?;
        }
        check_count(page, row)?;
        numbers.push(row.number_to("Packet", 255)? as u8);
    }
    for number in (0..=255).filter(|number| !numbers.contains(number)) {
        same(rows[0].line, &format!("packet {number}: number"), 18, reading(&[number; 25], rows[0].line)?.number)?;
    }
    Ok(rows.len())
}

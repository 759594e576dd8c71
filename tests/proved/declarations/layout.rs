//! Sizes of structs by the layout of C on x86-64.

use super::{Declared, Field};

pub struct Layout {
    pub size: u64,
    pub alignment: u64,
    /// Bytes that belong to no field, also those of the structs inside.
    pub padding: u64,
}

impl Declared {
    /// The layout of a struct; `None` where a type of it is not declared.
    pub fn layout(&self, name: &str) -> Option<Layout> {
        let start = Layout { size: 0, alignment: 1, padding: 0 };
        let behind = self.structs.get(name)?.iter().try_fold(start, |before, field| {
            let field = self.field_layout(field)?;
            let gap = before.size.next_multiple_of(field.alignment) - before.size;
            Some(Layout {
                size: before.size + gap + field.size,
                alignment: before.alignment.max(field.alignment),
                padding: before.padding + gap + field.padding,
            })
        })?;
        let end = behind.size.next_multiple_of(behind.alignment) - behind.size;
        Some(Layout { size: behind.size + end, padding: behind.padding + end, ..behind })
    }

    fn field_layout(&self, field: &Field) -> Option<Layout> {
        let scalar = |size| Layout { size, alignment: size, padding: 0 };
        let one = match field.typed.as_str() {
            "bool" | "u8" => scalar(1),
            "u16" => scalar(2),
            "u32" => scalar(4),
            "usize" => scalar(8),
            name => self.layout(name)?,
        };
        let count = field.count.unwrap_or(1);
        Some(Layout { size: count * one.size, padding: count * one.padding, ..one })
    }
}

//! C's layout rule: fields in order, each at the next multiple of its alignment, and the whole padded to its own
//! alignment, which is the largest among its fields.

use super::rattle::{Field, Item, Source, Struct};

#[derive(Clone, Copy, Debug, PartialEq, Eq)]
pub struct Layout {
    pub size: u64,
    pub align: u64,
}

impl Source {
    fn item_layout(&self, item: &Item) -> Layout {
        let (size, align) = match item {
            Item::U8 | Item::Bool => (1, 1),
            Item::U16 => (2, 2),
            Item::U32 | Item::I32 => (4, 4),
            Item::I64 => (8, 8),
            Item::Struct(name) => {
                return self.layout(self.known(name).expect("a type that was read is known"))
            }
        };
        Layout { size, align }
    }

    pub fn field_layout(&self, field: &Field) -> Layout {
        let Layout { size, align } = self.item_layout(&field.item);
        Layout {
            size: size * field.length.unwrap_or(1),
            align,
        }
    }

    /// Where each field begins, and at last where they end.
    pub fn places(&self, made: &Struct) -> Vec<u64> {
        let mut places = Vec::new();
        let mut end: u64 = 0;
        for field in &made.fields {
            let Layout { size, align } = self.field_layout(field);
            let start = end.next_multiple_of(align);
            places.push(start);
            end = start + size;
        }
        places.push(end);
        places
    }

    pub fn layout(&self, made: &Struct) -> Layout {
        let fields = made.fields.iter();
        let aligns = fields.map(|field| self.field_layout(field).align);
        let align = aligns.max().unwrap_or(1);
        let end = self.places(made).last().copied().unwrap_or(0);
        Layout {
            size: end.next_multiple_of(align),
            align,
        }
    }
}

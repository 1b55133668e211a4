//! What the Rattle source exports: its calls, the structs that they hand back, and the constants that say how long
//! arrays are. Reading is strict: whatever is marked as exported is understood completely, or it is an error.

use super::tokens::{tokens, without_comments, Cursor};
use std::collections::BTreeMap;

#[derive(Clone, Debug, PartialEq, Eq)]
pub enum Item {
    U8,
    U16,
    Bool,
    U32,
    I32,
    I64,
    Struct(String),
}

/// A field of one item, or of an array of them.
#[derive(Clone, Debug, PartialEq, Eq)]
pub struct Field {
    pub name: String,
    pub item: Item,
    pub length: Option<u64>,
}

#[derive(Clone, Debug, PartialEq, Eq)]
pub struct Struct {
    pub name: String,
    pub fields: Vec<Field>,
}

#[derive(Clone, Debug, PartialEq, Eq)]
pub enum Argument {
    Value(Item),
    Lent(Item),
    LentForWriting(Item),
}

#[derive(Clone, Debug, PartialEq, Eq)]
pub struct Call {
    pub name: String,
    pub arguments: Vec<Argument>,
    pub answer: Item,
}

#[derive(Clone, Debug, Default, PartialEq, Eq)]
pub struct Source {
    pub constants: BTreeMap<String, i64>,
    pub structs: Vec<Struct>,
    pub calls: Vec<Call>,
}

impl Source {
    /// Reads files in the order in which they rest on each other: what a file uses is known before it is read.
    pub fn read<'a>(files: impl IntoIterator<Item = (&'a str, &'a str)>) -> Result<Self, String> {
        let mut source = Source::default();
        for (name, text) in files {
            let found = tokens(&without_comments(text, "//", "\n"));
            source
                .read_file(&mut Cursor::new(&found))
                .map_err(|wrong| format!("{name}: {wrong}"))?;
        }
        if source.structs.is_empty() || source.calls.is_empty() {
            return Err("no struct or no call is exported".to_string());
        }
        Ok(source)
    }

    fn read_file(&mut self, cursor: &mut Cursor) -> Result<(), String> {
        while !cursor.is_at_end() {
            if cursor.passes("#[repr") {
                cursor.expect("(C)]")?;
                if cursor.passes("#[derive") && !cursor.passes("(Clone, Copy, Default)]") {
                    cursor.expect("(Clone, Copy)]")?;
                }
                cursor.expect("pub struct")?;
                let made = self.read_struct(cursor)?;
                self.structs.push(made);
            } else if cursor.passes("#[unsafe(no_mangle)]") {
                cursor.expect("pub extern \"C\" fn")?;
                let made = self.read_call(cursor)?;
                self.calls.push(made);
            } else if cursor.sees("no_mangle") || cursor.sees("extern") {
                cursor.expect("#[unsafe(no_mangle)]")?;
            } else if cursor.passes("const") {
                self.read_constant(cursor)?;
            } else {
                cursor.take();
            }
        }
        Ok(())
    }

    fn read_struct(&self, cursor: &mut Cursor) -> Result<Struct, String> {
        let name = cursor.word()?;
        if self.known(&name).is_some() {
            return Err(format!("{name} is declared twice"));
        }
        let mut fields = Vec::new();
        cursor.expect("{")?;
        while !cursor.passes("}") {
            cursor.expect("pub")?;
            let field = self.read_field(cursor);
            fields.push(field.map_err(|wrong| format!("{name}: {wrong}"))?);
            cursor.expect(",")?;
        }
        if fields.is_empty() {
            return Err(format!("{name} has no fields"));
        }
        Ok(Struct { name, fields })
    }

    fn read_field(&self, cursor: &mut Cursor) -> Result<Field, String> {
        let name = cursor.word()?;
        cursor.expect(":")?;
        let array = cursor.passes("[");
        let item = self.read_item(cursor)?;
        let mut length = None;
        if array {
            cursor.expect(";")?;
            let value = self.read_value(cursor)?;
            let value = u64::try_from(value).map_err(|_| format!("{name} has a length below 0"))?;
            length = Some(value);
            cursor.expect("]")?;
        }
        Ok(Field { name, item, length })
    }

    fn read_call(&self, cursor: &mut Cursor) -> Result<Call, String> {
        let name = cursor.word()?;
        if self.calls.iter().any(|call| call.name == name) {
            return Err(format!("{name} is declared twice"));
        }
        let mut arguments = Vec::new();
        cursor.expect("(")?;
        while !cursor.passes(")") {
            let argument = self.read_argument(cursor);
            arguments.push(argument.map_err(|wrong| format!("{name}: {wrong}"))?);
            if !cursor.sees(")") {
                cursor.expect(",")?;
            }
        }
        cursor.expect("->")?;
        let answer = self.read_item(cursor)?;
        if !cursor.sees("requires") && !cursor.sees("ensures") {
            cursor.expect("{")?;
        }
        Ok(Call {
            name,
            arguments,
            answer,
        })
    }

    fn read_argument(&self, cursor: &mut Cursor) -> Result<Argument, String> {
        cursor.word()?;
        cursor.expect(":")?;
        if !cursor.passes("&") {
            return Ok(Argument::Value(self.read_item(cursor)?));
        }
        let written = cursor.passes("mut");
        cursor.expect("[")?;
        let item = self.read_item(cursor)?;
        cursor.expect("]")?;
        Ok(match written {
            true => Argument::LentForWriting(item),
            false => Argument::Lent(item),
        })
    }

    fn read_item(&self, cursor: &mut Cursor) -> Result<Item, String> {
        let name = cursor.word()?;
        match name.as_str() {
            "u8" => Ok(Item::U8),
            "u16" => Ok(Item::U16),
            "bool" => Ok(Item::Bool),
            "u32" => Ok(Item::U32),
            "i32" => Ok(Item::I32),
            "i64" => Ok(Item::I64),
            _ if self.known(&name).is_some() => Ok(Item::Struct(name)),
            _ => Err(format!("the type {name} is not known")),
        }
    }

    fn read_constant(&mut self, cursor: &mut Cursor) -> Result<(), String> {
        let name = cursor.word()?;
        cursor.expect(":")?;
        let kind = cursor.word()?;
        if !["usize", "u32", "u64", "i32"].contains(&kind.as_str()) {
            return Err(format!("{name}: the type {kind} is not known"));
        }
        cursor.expect("=")?;
        let value = self.read_value(cursor);
        let value = value.map_err(|wrong| format!("{name}: {wrong}"))?;
        cursor.expect(";")?;
        match self.constants.insert(name.clone(), value) {
            Some(_) => Err(format!("{name} is declared twice")),
            None => Ok(()),
        }
    }

    /// A sum of products of numbers and constants.
    fn read_value(&self, cursor: &mut Cursor) -> Result<i64, String> {
        let mut sum = 0;
        let mut product = self.read_factor(cursor)?;
        loop {
            if cursor.passes("*") {
                product *= self.read_factor(cursor)?;
            } else if cursor.passes("+") {
                sum += product;
                product = self.read_factor(cursor)?;
            } else {
                return Ok(sum + product);
            }
        }
    }

    fn read_factor(&self, cursor: &mut Cursor) -> Result<i64, String> {
        let sign = if cursor.passes("-") { -1 } else { 1 };
        let token = cursor.take();
        let number = token.parse().ok();
        number
            .or(self.constants.get(token).copied())
            .map(|value: i64| sign * value)
            .ok_or(format!("the value {token} is not known"))
    }

    /// A struct by its name.
    pub fn known(&self, name: &str) -> Option<&Struct> {
        self.structs.iter().find(|made| made.name == name)
    }

    pub fn constant(&self, name: &str) -> Result<i64, String> {
        let found = self.constants.get(name).copied();
        found.ok_or(format!("the source has no constant {name}"))
    }

    /// The length of a field that is an array.
    pub fn length(&self, name: &str, field: &str) -> Result<u64, String> {
        let made = self.known(name).ok_or(format!("there is no {name}"))?;
        let found = made.fields.iter().find(|found| found.name == field);
        found
            .and_then(|found| found.length)
            .ok_or(format!("{name} has no array {field}"))
    }

    /// Whether a call hands the struct back.
    pub fn is_answer(&self, made: &Struct) -> bool {
        let item = Item::Struct(made.name.clone());
        self.calls.iter().any(|call| call.answer == item)
    }

    /// Whether it is a place of a log, which is lent as a list of numbers: every field is such a number, there are as many
    /// as a place has, and a call is lent such a list.
    pub fn is_record(&self, made: &Struct) -> bool {
        let numbers = self.constants.get("RECORD_NUMBERS");
        let plain = |field: &Field| field.item == Item::I64 && field.length.is_none();
        let mut lent = self.calls.iter().flat_map(|call| &call.arguments);
        numbers == Some(&(made.fields.len() as i64))
            && made.fields.iter().all(plain)
            && lent.any(|argument| *argument == Argument::LentForWriting(Item::I64))
    }

    /// Whether another struct holds it.
    pub fn is_held(&self, made: &Struct) -> bool {
        let item = Item::Struct(made.name.clone());
        let mut fields = self.structs.iter().flat_map(|other| &other.fields);
        fields.any(|field| field.item == item)
    }
}

//! Checks in Rust of the declarations of bindings/rust, written from the Rattle source. They refer to a module `raw`.

use super::rattle::{Argument, Call, Field, Item, Source, Struct};
use super::same;
use super::tokens::{tokens, without_comments, Cursor};
use std::fmt::Display;

/// A flag that comes back is a byte there: nothing is assumed of what foreign code hands back.
fn held(item: &Item) -> String {
    match item {
        Item::Bool => "u8".to_string(),
        other => handed(other),
    }
}

fn handed(item: &Item) -> String {
    match item {
        Item::U8 => "u8".to_string(),
        Item::U16 => "u16".to_string(),
        Item::Bool => "bool".to_string(),
        Item::U32 => "u32".to_string(),
        Item::I32 => "i32".to_string(),
        Item::I64 => "i64".to_string(),
        Item::Struct(name) => format!("raw::{name}"),
    }
}

/// A slice crosses as its first place and its length.
fn argument(argument: &Argument) -> String {
    match argument {
        Argument::Value(value) => handed(value),
        Argument::Lent(of) => format!("*const {}, usize", handed(of)),
        Argument::LentForWriting(of) => format!("*mut {}, usize", handed(of)),
    }
}

/// The types of arguments and answer, in the call's place.
fn call_check(call: &Call) -> String {
    let arguments: Vec<String> = call.arguments.iter().map(argument).collect();
    let (name, arguments) = (&call.name, arguments.join(", "));
    let answer = held(&call.answer);
    format!("const _: unsafe extern \"C\" fn({arguments}) -> {answer} = raw::{name};\n")
}

fn assertion(figure: &str, value: impl Display) -> String {
    format!("const _: () = assert!({figure} == {value});\n")
}

fn field_checks(owner: &str, field: &Field, place: u64) -> String {
    let name = &field.name;
    let held = match field.length {
        Some(length) => format!("[{}; {length}]", held(&field.item)),
        None => held(&field.item),
    };
    let place = assertion(&format!("core::mem::offset_of!({owner}, {name})"), place);
    format!("{place}const _: fn(&{owner}) -> &{held} = |made| &made.{name};\n")
}

/// Size, alignment, every field, and that there are no others: a pattern must name them all.
fn struct_checks(source: &Source, made: &Struct) -> String {
    let owner = format!("raw::{}", made.name);
    let layout = source.layout(made);
    let fields = made.fields.iter().zip(source.places(made));
    let fields = fields.map(|(field, place)| field_checks(&owner, field, place));
    let names = made.fields.iter().map(|field| format!("{}: _", field.name));
    let names = names.collect::<Vec<_>>().join(", ");
    [
        assertion(&format!("core::mem::size_of::<{owner}>()"), layout.size),
        assertion(&format!("core::mem::align_of::<{owner}>()"), layout.align),
        fields.collect(),
        format!("const _: fn({owner}) = |{owner} {{ {names} }}| ();\n"),
    ]
    .concat()
}

/// The checks: every struct, every call, and the named values.
pub fn checks(source: &Source, values: &[(String, i64)]) -> String {
    let structs = source.structs.iter();
    let values = values
        .iter()
        .map(|(name, value)| assertion(&format!("raw::{name} as i64"), value));
    structs
        .map(|made| struct_checks(source, made))
        .chain(source.calls.iter().map(call_check))
        .chain(values)
        .collect()
}

/// What the declarations have, by name.
#[derive(Clone, Debug, Default, PartialEq, Eq)]
pub struct Raw {
    pub structs: Vec<String>,
    pub calls: Vec<String>,
    pub constants: Vec<String>,
}

impl Raw {
    pub fn read(text: &str) -> Result<Self, String> {
        let found = tokens(&without_comments(text, "//", "\n"));
        let mut raw = Raw::default();
        let mut cursor = Cursor::new(&found);
        let mut marked = false;
        while !cursor.is_at_end() {
            if cursor.passes("#[repr(C)]") {
                marked = true;
            } else if cursor.passes("struct") {
                let name = cursor.word()?;
                if !marked {
                    return Err(format!("{name} is not repr(C)"));
                }
                raw.structs.push(name);
                marked = false;
            } else if cursor.passes("fn") {
                raw.calls.push(cursor.word()?);
            } else if cursor.passes("pub const") {
                raw.constants.push(cursor.word()?);
            } else {
                cursor.take();
            }
        }
        Ok(raw)
    }

    /// Structs and calls are those of the source, each once, and no others.
    pub fn agrees(&self, source: &Source) -> Result<(), String> {
        let calls = source.calls.iter().map(|call| call.name.clone());
        same("calls", &self.calls, calls)?;
        let structs = source.structs.iter().map(|made| made.name.clone());
        same("structs", &self.structs, structs)
    }

    /// The constants that are declared, and the figures that the header's macros of these names stand for.
    pub fn values(&self, values: &[(String, i64)]) -> Result<Vec<(String, i64)>, String> {
        let known = |name: &String| {
            let macro_name = format!("KISTROVU_{name}");
            let found = values.iter().find(|(other, _)| *other == macro_name);
            let (_, value) = found.ok_or(format!("the constant {name} is not known"))?;
            Ok((name.clone(), *value))
        };
        self.constants.iter().map(known).collect()
    }
}

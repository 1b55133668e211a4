//! Checks in C and C++, written from the Rattle source alone. If a compiler accepts them, the header agrees.

use super::rattle::{Argument, Call, Field, Item, Source, Struct};
use std::iter::once;

/// The name in C of a struct of the source.
pub fn struct_name(name: &str) -> String {
    let mut made = String::from("kistrovu");
    for character in name.chars() {
        if character.is_uppercase() {
            made.push('_');
        }
        made.extend(character.to_lowercase());
    }
    made
}

fn item(item: &Item) -> String {
    match item {
        Item::U8 => "uint8_t".to_string(),
        Item::U16 => "uint16_t".to_string(),
        Item::Bool => "bool".to_string(),
        Item::U32 => "uint32_t".to_string(),
        Item::I32 => "int32_t".to_string(),
        Item::I64 => "int64_t".to_string(),
        Item::Struct(name) => format!("struct {}", struct_name(name)),
    }
}

/// A slice crosses as its first place and its length.
fn argument(argument: &Argument) -> String {
    match argument {
        Argument::Value(value) => item(value),
        Argument::Lent(of) => format!("const {} *, size_t", item(of)),
        Argument::LentForWriting(of) => format!("{} *, size_t", item(of)),
    }
}

fn arguments(call: &Call) -> String {
    match call.arguments.is_empty() {
        true => "void".to_string(),
        false => call
            .arguments
            .iter()
            .map(argument)
            .collect::<Vec<_>>()
            .join(", "),
    }
}

fn assertion(test: &str, what: &str) -> String {
    format!("_Static_assert({test}, \"{what}\");\n")
}

/// Size, place and type. A pointer to the field tells apart types of one size, as bool and uint8_t are.
fn field_checks(source: &Source, owner: &str, field: &Field, place: u64) -> String {
    let name = &field.name;
    let whole = format!("(({owner} *)0)->{name}");
    let size = source.field_layout(field).size;
    let pointer = match field.length {
        Some(length) => format!("{} (*)[{length}]", item(&field.item)),
        None => format!("{} *", item(&field.item)),
    };
    [
        assertion(
            &format!("sizeof({whole}) == {size}"),
            &format!("the size of {name} in {owner}"),
        ),
        assertion(
            &format!("offsetof({owner}, {name}) == {place}"),
            &format!("the place of {name} in {owner}"),
        ),
        assertion(
            &format!("_Generic(&{whole}, {pointer}: 1, default: 0)"),
            &format!("the type of {name} in {owner}"),
        ),
    ]
    .concat()
}

fn struct_checks(source: &Source, made: &Struct) -> String {
    let owner = format!("struct {}", struct_name(&made.name));
    let layout = source.layout(made);
    let size = assertion(
        &format!("sizeof({owner}) == {}", layout.size),
        &format!("the size of {owner}"),
    );
    let align = assertion(
        &format!("_Alignof({owner}) == {}", layout.align),
        &format!("the alignment of {owner}"),
    );
    let fields = made.fields.iter().zip(source.places(made));
    let fields = fields.map(|(field, place)| field_checks(source, &owner, field, place));
    [size, align].into_iter().chain(fields).collect()
}

/// A constant of the call's exact type, which is the call.
fn call_check(call: &Call) -> String {
    let (name, answer) = (&call.name, item(&call.answer));
    let arguments = arguments(call);
    format!("{answer} (*const is_{name})({arguments}) = {name};\n")
}

/// Twice, since a header may be included by many.
const INCLUDES: &str = "#include \"kistrovu.h\"\n#include \"kistrovu.h\"\n";

/// The checks in C: every struct, every call, and the named values.
pub fn checks(source: &Source, values: &[(String, i64)]) -> String {
    let structs = source.structs.iter();
    let values = values
        .iter()
        .map(|(name, value)| assertion(&format!("{name} == {value}"), name));
    once(INCLUDES.to_string())
        .chain(structs.map(|made| struct_checks(source, made)))
        .chain(values)
        .chain(source.calls.iter().map(call_check))
        .collect()
}

/// The check in C++: each call is declared once more with C linkage, which contradicts a declaration without it.
pub fn linkage_checks(source: &Source) -> String {
    let again = source.calls.iter().map(|call| {
        let (name, answer) = (&call.name, item(&call.answer));
        format!("extern \"C\" {answer} {name}({});\n", arguments(call))
    });
    once(INCLUDES.to_string()).chain(again).collect()
}

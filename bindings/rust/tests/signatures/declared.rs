//! Reads exported functions, and the fields of their answers, out of the texts that declare them.

/// An exported function.
#[derive(Debug, PartialEq, Eq)]
pub struct Function {
    pub name: String,
    pub arguments: Vec<Argument>,
    pub answer: String,
}

/// A slice, which C gets as a pointer and then a length, or a number; a bool counts as one.
#[derive(Debug, PartialEq, Eq)]
pub enum Argument {
    Slice { name: String, written: bool },
    Number { name: String, kind: &'static str },
}

/// An answer's fields in order, each with the kind of number that it is.
pub type Fields = Vec<(String, &'static str)>;

/// How one C argument is passed.
enum Passed {
    Read,
    Written,
    Length,
    Number(&'static str),
}

/// The kinds of numbers beside those of C.
const NUMBERS: [(&str, &str); 5] = [
    ("u32", "uint32_t"),
    ("u64", "uint64_t"),
    ("i32", "int32_t"),
    ("f32", "float"),
    ("bool", "bool"),
];

fn number_in_rust(kind: &str) -> Option<&'static str> {
    NUMBERS.iter().find(|(rust, _)| *rust == kind).map(|(rust, _)| *rust)
}

fn number_in_c(kind: &str) -> Option<&'static str> {
    NUMBERS.iter().find(|(_, c)| *c == kind).map(|(rust, _)| *rust)
}

/// The functions that Rattle source exports. `dat` is `data` elsewhere: the proof language reserves that
/// name.
pub fn in_rattle(text: &str) -> Result<Vec<Function>, String> {
    let text = without_comments(text);
    let heads = text.split("#[unsafe(no_mangle)]").skip(1);
    heads
        .map(|head| {
            let (name, arguments, behind) = head_parts(head, "pub extern \"C\" fn ")?;
            let arguments = arguments.iter().map(|argument| {
                let (given, kind) = argument.split_once(": ").unwrap_or((argument, ""));
                match (kind, number_in_rust(kind)) {
                    ("&[u8]", _) => Ok(slice_named(given, false)),
                    ("&mut [u8]", _) => Ok(slice_named(given, true)),
                    (_, Some(kind)) => Ok(Argument::Number { name: given.into(), kind }),
                    _ => Err(format!("{name}: {argument} is no slice of bytes and no number")),
                }
            });
            let arguments = arguments.collect::<Result<_, _>>()?;
            let answer = answer_behind(name, behind)?;
            Ok(Function { name: name.into(), arguments, answer })
        })
        .collect()
}

/// The functions of the binding's one foreign block.
pub fn in_rust(text: &str) -> Result<Vec<Function>, String> {
    let text = without_comments(text);
    let (_, block) = text.split_once("extern \"C\" {").ok_or("there is no foreign block")?;
    let (block, _) = block.split_once('}').ok_or("the foreign block does not end")?;
    let heads = block.split(';').filter(|head| !head.trim().is_empty());
    heads
        .map(|head| {
            let (name, arguments, behind) = head_parts(head, "fn ")?;
            let passed = arguments.iter().map(|argument| {
                let (given, kind) = argument.split_once(": ").unwrap_or((argument, ""));
                match (kind, number_in_rust(kind)) {
                    ("*const u8", _) => Ok((given, Passed::Read)),
                    ("*mut u8", _) => Ok((given, Passed::Written)),
                    ("usize", _) => Ok((given, Passed::Length)),
                    (_, Some(kind)) => Ok((given, Passed::Number(kind))),
                    _ => Err(format!("{name}: {argument} is no part of a slice and no number")),
                }
            });
            let arguments = joined(name, passed.collect::<Result<_, _>>()?)?;
            let answer = answer_behind(name, behind)?;
            Ok(Function { name: name.into(), arguments, answer })
        })
        .collect()
}

/// The functions that the header declares.
pub fn in_c(text: &str) -> Result<Vec<Function>, String> {
    let text = without_comments(text);
    let heads = text.split(';').filter(|head| head.contains('('));
    heads
        .map(|head| {
            let (before, _) = head.split_once('(').expect("it was sought");
            let (answer, _) = before.rsplit_once(char::is_whitespace).unwrap_or(("", before));
            let (name, arguments, _) = head_parts(head, answer)?;
            let passed = arguments.iter().map(|argument| {
                let const_bytes = argument.strip_prefix("const uint8_t *");
                let bytes = argument.strip_prefix("uint8_t *");
                let (kind, given) = argument.split_once(' ').unwrap_or((argument, ""));
                match (const_bytes, bytes, kind, number_in_c(kind)) {
                    (Some(given), _, _, _) => Ok((given, Passed::Read)),
                    (_, Some(given), _, _) => Ok((given, Passed::Written)),
                    (_, _, "size_t", _) => Ok((given, Passed::Length)),
                    (_, _, _, Some(kind)) => Ok((given, Passed::Number(kind))),
                    _ => Err(format!("{name}: {argument} is no part of a slice and no number")),
                }
            });
            let arguments = joined(name, passed.collect::<Result<_, _>>()?)?;
            let of_c = ANSWERS.iter().find(|(_, c)| answer.trim() == format!("struct {c}"));
            let answer = of_c.map_or(answer.trim(), |(rust, _)| rust).into();
            Ok(Function { name: name.into(), arguments, answer })
        })
        .collect()
}

/// The answers' names beside those of C.
pub const ANSWERS: [(&str, &str); 2] =
    [("Answer", "pronouncer_answer"), ("Settings", "pronouncer_settings")];

/// The fields of an answer, in Rattle or in Rust, which must have C's layout.
pub fn fields_in_rust(text: &str, answer: &str) -> Result<Fields, String> {
    let text = without_comments(text);
    let opening = format!("pub struct {answer} {{");
    let (before, behind) = text.split_once(&opening).ok_or(format!("there is no {answer}"))?;
    let attributes = before.rsplit('}').next().unwrap_or(before);
    if !attributes.contains("#[repr(C)]") {
        return Err(format!("{answer} has not C's layout"));
    }
    let body = behind.split('}').next().unwrap_or(behind);
    let rows = body.split(',').map(str::trim).filter(|row| !row.is_empty());
    rows.map(|row| {
        let field = row.strip_prefix("pub ").and_then(|row| row.split_once(": "));
        let field = field.and_then(|(name, kind)| Some((name.into(), number_in_rust(kind)?)));
        field.ok_or(format!("{answer}: {row} is no number"))
    })
    .collect()
}

/// The fields of an answer of the header.
pub fn fields_in_c(text: &str, answer: &str) -> Result<Fields, String> {
    let text = without_comments(text);
    let opening = format!("struct {answer} {{");
    let (_, behind) = text.split_once(&opening).ok_or(format!("there is no {answer}"))?;
    let body = behind.split('}').next().unwrap_or(behind);
    let rows = body.split(';').map(str::trim).filter(|row| !row.is_empty());
    rows.map(|row| {
        let field = row.split_once(' ');
        let field = field.and_then(|(kind, name)| Some((name.into(), number_in_c(kind)?)));
        field.ok_or(format!("struct {answer}: {row} is no number"))
    })
    .collect()
}

/// Where two lists of functions part, in words; their order does not matter.
pub fn differences(source: &[Function], place: &str, found: &[Function]) -> Vec<String> {
    let mut told = Vec::new();
    for wanted in source {
        let mut same_name = found.iter().filter(|function| function.name == wanted.name);
        match (same_name.next(), same_name.next()) {
            (None, _) => told.push(format!("{place} lacks {}", wanted.name)),
            (Some(function), None) if function == wanted => {}
            (Some(function), None) => {
                told.push(format!("{place} has {function:?}, the source {wanted:?}"))
            }
            (Some(_), Some(_)) => told.push(format!("{place} has {} twice", wanted.name)),
        }
    }
    for function in found {
        if source.iter().all(|wanted| wanted.name != function.name) {
            told.push(format!("the source lacks {} of {place}", function.name));
        }
    }
    told
}

fn slice_named(name: &str, written: bool) -> Argument {
    let name = if name == "dat" { "data" } else { name };
    Argument::Slice { name: name.into(), written }
}

/// Pointers, each with its length behind it, as slices; numbers as they are.
fn joined(function: &str, passed: Vec<(&str, Passed)>) -> Result<Vec<Argument>, String> {
    let mut passed = passed.into_iter();
    let mut arguments = Vec::new();
    while let Some((name, how)) = passed.next() {
        let written = match how {
            Passed::Read => false,
            Passed::Written => true,
            Passed::Number(kind) => {
                arguments.push(Argument::Number { name: name.into(), kind });
                continue;
            }
            Passed::Length => return Err(format!("{function}: {name} has no pointer before it")),
        };
        match passed.next() {
            Some((length, Passed::Length)) if length == format!("{name}_len") => {
                arguments.push(slice_named(name, written));
            }
            _ => return Err(format!("{function}: {name} has no length behind it")),
        }
    }
    Ok(arguments)
}

/// A function's name, its arguments, and what stands behind them.
fn head_parts<'t>(
    head: &'t str,
    opening: &str,
) -> Result<(&'t str, Vec<&'t str>, &'t str), String> {
    let head = head.trim_start();
    let parts = head.strip_prefix(opening.trim_start()).and_then(|rest| {
        let (name, rest) = rest.split_once('(')?;
        let (arguments, behind) = rest.split_once(')')?;
        Some((name.trim(), arguments, behind))
    });
    let (name, arguments, behind) = parts.ok_or_else(|| format!("no function: {head}"))?;
    let arguments = arguments.split(',').map(str::trim).filter(|argument| !argument.is_empty());
    Ok((name, arguments.collect(), behind))
}

fn answer_behind(name: &str, behind: &str) -> Result<String, String> {
    let (_, answer) = behind.split_once("-> ").ok_or_else(|| format!("{name} answers nothing"))?;
    Ok(answer.split_whitespace().next().unwrap_or("").into())
}

/// A text without its comments, preprocessor lines and the lines that open or close `extern "C"` for C++.
fn without_comments(text: &str) -> String {
    let mut plain = String::new();
    for (place, part) in text.split("/*").enumerate() {
        let code =
            if place == 0 { part } else { part.split_once("*/").map_or("", |(_, code)| code) };
        plain += code;
    }
    let lines = plain.lines().map(|line| line.split("//").next().unwrap_or(line));
    lines.filter(|line| !is_directive(line)).flat_map(|line| [line, "\n"]).collect()
}

fn is_directive(line: &str) -> bool {
    let word = line.trim_start();
    ["#if", "#endif", "#define", "#include"].iter().any(|start| word.starts_with(start))
}

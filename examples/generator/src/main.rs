//! Makes a module of Rust from a description of structs and of tables of constants, a file that is read line by line:
//!
//!     module NAME | DOC
//!     struct NAME | DOC
//!     field NAME: TYPE = VALUE
//!     table NAME: TYPE | DOC
//!     row NAME = VALUE | DOC
//!
//! A struct gets a function that makes its default value and one for each field, and a table a function that finds a constant by its name
//! and one for each constant. No line of Rust is put together as text: each node is made by a call, which refuses what Rust doesn't take. So names may be
//! keywords, strings may hold quotes, and values need no parentheses: `60 + 4 * 1024` is read from left to right.
//!
//! `generator settings.txt` prints the module, or which line of the description can't be made, and why.
use froesaffron::build::*;
use froesaffron::unparse;
use std::error::Error;
use std::{env, fs};

type Made<T> = Result<T, Box<dyn Error>>;

fn main() -> Made<()> {
    let path = env::args().nth(1).ok_or("usage: generator FILE")?;
    let description = fs::read_to_string(&path)?;
    let mut module = Module::default();
    for (number, line) in description.lines().enumerate() {
        module.add(line).map_err(|why| format!("{path}:{}: {why}", number + 1))?;
    }
    print!("{}", unparse(&file([module.finished()?])?)?);
    Ok(())
}

/// The module, as far as the description was read.
#[derive(Default)]
struct Module<'a> {
    name: &'a str,
    doc: &'a str,
    items: Vec<BuiltItem>,
    part: Option<Part<'a>>,
}

/// The struct or the table to which the next line may belong.
struct Part<'a> {
    name: &'a str,
    doc: &'a str,
    kind: Kind<'a>,
}

enum Kind<'a> {
    Struct { params: Vec<BuiltParam>, fields: Vec<BuiltField>, getters: Vec<BuiltItem> },
    Table { of: &'a str, stmts: Vec<BuiltStmt> },
}

impl<'a> Module<'a> {
    /// Reads a line.
    fn add(&mut self, line: &'a str) -> Made<()> {
        let (line, doc) = line.split_once(" | ").unwrap_or((line, ""));
        let (keyword, rest) = line.trim().split_once(' ').unwrap_or((line.trim(), ""));
        match (keyword, &mut self.part) {
            ("", _) => {}
            ("module", _) => (self.name, self.doc) = (rest, doc),
            ("struct", _) => {
                let kind = Kind::Struct { params: Vec::new(), fields: Vec::new(), getters: Vec::new() };
                self.begin(Part { name: rest, doc, kind })?;
            }
            ("table", _) => {
                let (name, of) = cut(rest, ": ")?;
                let found = stmt_let("found", Some(option_of(of)?), expr_path("None")?)?;
                let kind = Kind::Table { of, stmts: vec![found] };
                self.begin(Part { name, doc, kind })?;
            }
            ("field", Some(part)) => part.add_field(rest)?,
            ("row", Some(part)) => self.items.extend(part.add_row(rest, doc)?),
            _ => return Err("no such line".into()),
        }
        Ok(())
    }

    /// Ends the part before, and begins the next one.
    fn begin(&mut self, part: Part<'a>) -> Made<()> {
        if let Some(before) = self.part.replace(part) {
            self.items.extend(before.finished()?);
        }
        Ok(())
    }

    fn finished(mut self) -> Made<BuiltItem> {
        if let Some(part) = self.part.take() {
            self.items.extend(part.finished()?);
        }
        documented(item_mod(true, self.name, self.items)?, self.doc)
    }
}

impl Part<'_> {
    /// `NAME: TYPE = VALUE`: a field, its default value, and `fn struct_field(struct: &Struct) -> TYPE { struct.field.clone() }`.
    fn add_field(&mut self, rest: &str) -> Made<()> {
        let Kind::Struct { params, fields, getters } = &mut self.kind else { return Err("a field of no struct".into()) };
        let (name, rest) = cut(rest, ": ")?;
        let (of, given) = cut(rest, " = ")?;
        params.push(param(name, type_of(of)?)?);
        fields.push(field(name, value(given, of)?)?);
        let whole = snake(self.name);
        let copy = expr_method(expr_field(expr_path(&whole)?, name)?, "clone", [])?;
        let taken = param(&whole, type_ref(false, ty(self.name)?)?)?;
        let body = block([], Some(copy))?;
        let getter = function(&format!("{whole}_{name}"), [taken], type_of(of)?, body)?;
        getters.push(documented(getter, &format!("The `{name}` of a [`{}`].", self.name))?);
        Ok(())
    }

    /// `NAME = VALUE`: a constant and `fn is_name(table: TYPE) -> bool { table == NAME }`, and a step of the function that finds it.
    fn add_row(&mut self, rest: &str, doc: &str) -> Made<[BuiltItem; 2]> {
        let Kind::Table { of, stmts } = &mut self.kind else { return Err("a row of no table".into()) };
        let (name, given) = cut(rest, " = ")?;
        let test = expr_binary(Op::EqEq, expr_path("name")?, expr_str(name)?)?;
        let then = block([], Some(expr_call(expr_path("Some")?, [expr_path(name)?])?))?;
        let other = block([], Some(expr_path("found")?))?;
        stmts.push(stmt_let("found", None, expr_if(test, then, Some(other))?)?);
        let whole = snake(self.name);
        let same = expr_binary(Op::EqEq, expr_path(&whole)?, expr_path(name)?)?;
        let taken = param(&whole, type_of(of)?)?;
        let body = block([], Some(same))?;
        let is_it = function(&format!("is_{}", snake(name)), [taken], ty("bool")?, body)?;
        let constant = item_const(true, name, type_of(of)?, value(given, of)?)?;
        Ok([documented(constant, doc)?, documented(is_it, &format!("Whether it is [`{name}`]."))?])
    }

    /// What the lines together make: a struct, its default value and a function for each field, or the function that finds a constant.
    fn finished(self) -> Made<Vec<BuiltItem>> {
        let whole = snake(self.name);
        match self.kind {
            Kind::Struct { params, fields, getters } => {
                let body = block([], Some(expr_struct(self.name, fields)?))?;
                let default = function(&format!("default_{whole}"), [], ty(self.name)?, body)?;
                let mut items = vec![documented(item_struct(true, self.name, params)?, self.doc)?];
                let doc = format!("The [`{}`] where nothing else is said.", self.name);
                items.push(documented(default, &doc)?);
                items.extend(getters);
                Ok(items)
            }
            Kind::Table { of, stmts } => {
                let body = block(stmts, Some(expr_path("found")?))?;
                let taken = param("name", type_ref(false, ty("str")?)?)?;
                let find = function(&format!("{whole}_of"), [taken], option_of(of)?, body)?;
                Ok(vec![documented(find, &format!("{} It is found by its name.", self.doc))?])
            }
        }
    }
}

/// A public function with a result.
fn function(
    name: &str,
    params: impl IntoIterator<Item = BuiltParam>,
    output: BuiltType,
    body: BuiltBlock,
) -> Result<BuiltItem, BuildError> {
    item_fn(true, name, params, Some(output), body)
}

/// With documentation, if there is any, a blank before it.
fn documented(item: BuiltItem, text: &str) -> Made<BuiltItem> {
    match text {
        "" => Ok(item),
        _ => Ok(with_doc(item, &format!(" {text}"))?),
    }
}

/// A value of a type: a text in quotes, which is as it stands, or terms with operators between them, from left to right.
fn value(text: &str, of: &str) -> Made<BuiltExpr> {
    if let Some(text) = text.strip_prefix('"').and_then(|it| it.strip_suffix('"')) {
        let literal = expr_str(text)?;
        return Ok(match of {
            "String" => expr_method(literal, "to_string", [])?,
            _ => literal,
        });
    }
    let mut words = text.split_whitespace();
    let mut made = term(words.next().unwrap_or(""))?;
    while let Some(operator) = words.next() {
        let op = match operator {
            "+" => Op::Add,
            "-" => Op::Sub,
            "*" => Op::Mul,
            _ => return Err(format!("no operator: {operator}").into()),
        };
        made = expr_binary(op, made, term(words.next().unwrap_or(""))?)?;
    }
    Ok(made)
}

/// A number, a path, or a call without arguments.
fn term(word: &str) -> Made<BuiltExpr> {
    if let Ok(number) = word.parse() {
        return Ok(expr_int(number)?);
    }
    Ok(match word.strip_suffix("()") {
        Some(callee) => expr_call(expr_path(callee)?, [])?,
        None => expr_path(word)?,
    })
}

/// The type that a text is.
fn type_of(text: &str) -> Made<BuiltType> {
    match type_before(text)? {
        (made, "") => Ok(made),
        (_, rest) => Err(format!("no type ends before {rest:?}").into()),
    }
}

fn option_of(text: &str) -> Made<BuiltType> {
    Ok(type_path("Option", [type_of(text)?])?)
}

/// The type that a text begins with, and what follows it.
fn type_before(text: &str) -> Made<(BuiltType, &str)> {
    let text = text.trim_start();
    if let Some(rest) = text.strip_prefix('&') {
        let (of, rest) = type_before(rest)?;
        return Ok((type_ref(false, of)?, rest));
    }
    if let Some(rest) = text.strip_prefix('(') {
        let (parts, rest) = types_before(rest, ')')?;
        return Ok((type_tuple(parts)?, rest));
    }
    let (path, rest) = text.split_at(text.find(['<', '>', ',', ')']).unwrap_or(text.len()));
    let (args, rest) = match rest.strip_prefix('<') {
        Some(rest) => types_before(rest, '>')?,
        None => (Vec::new(), rest),
    };
    Ok((type_path(path.trim(), args)?, rest))
}

/// The types that stand before a closing bracket, and what follows it.
fn types_before(text: &str, close: char) -> Made<(Vec<BuiltType>, &str)> {
    let mut types = Vec::new();
    let mut text = text;
    loop {
        if let Some(rest) = text.trim_start().strip_prefix(close) {
            return Ok((types, rest));
        }
        let (made, rest) = type_before(text)?;
        types.push(made);
        text = rest.strip_prefix(',').unwrap_or(rest);
    }
}

/// The two parts of a line around a mark.
fn cut<'a>(text: &'a str, mark: &str) -> Made<(&'a str, &'a str)> {
    text.split_once(mark).ok_or_else(|| format!("lacks {mark:?}").into())
}

/// The name in small letters, with `_` before what were capital ones within it.
fn snake(name: &str) -> String {
    let mut small = String::new();
    for letter in name.chars() {
        if letter.is_uppercase() && small.ends_with(|it: char| it.is_lowercase()) && name.chars().any(char::is_lowercase) {
            small.push('_');
        }
        small.extend(letter.to_lowercase());
    }
    small
}

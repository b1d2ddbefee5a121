//! What the Rattle source declares: exported calls, constants, numbers of the specification, and the
//! fields of a struct, each in the words of C and of Rust.

use std::collections::BTreeMap;

/// How a parameter is handed over.
enum Passing {
    /// By value.
    Value,
    /// `&[T]` and `&mut [T]`: a pointer and a length.
    ReadSlice,
    WrittenSlice,
    /// `&mut T`: a pointer.
    Written,
    /// `&mut [T; N]`: a pointer to so many elements.
    WrittenArray(String),
}

/// A parameter of an exported call: its name, the type of its elements, and how it is handed over.
struct Parameter {
    name: String,
    element: String,
    passing: Passing,
}

/// An exported call.
pub struct Export {
    pub name: String,
    parameters: Vec<Parameter>,
    result: String,
}

/// All exported calls of a source.
pub fn exports(source: &str) -> Vec<Export> {
    let heads = source.split("pub extern \"C\" fn ").skip(1);
    heads.map(Export::read).collect()
}

/// The calls of a source that exports stand for, which have their names.
pub fn exported(source: &str) -> Vec<Export> {
    let heads = source.split("pub fn ").skip(1);
    let named = heads.filter(|text| text.starts_with("frontier_"));
    named.map(Export::read).collect()
}

impl Parameter {
    fn read(text: &str) -> Parameter {
        let (name, kind) = text.split_once(": ").expect("a name and a type");
        let (element, passing) = if let Some(array) = kind.strip_prefix("&mut [") {
            match array.trim_end_matches(']').split_once("; ") {
                Some((element, length)) => (element, Passing::WrittenArray(length.into())),
                None => (array.trim_end_matches(']'), Passing::WrittenSlice),
            }
        } else if let Some(slice) = kind.strip_prefix("&[") {
            (slice.trim_end_matches(']'), Passing::ReadSlice)
        } else if let Some(element) = kind.strip_prefix("&mut ") {
            (element, Passing::Written)
        } else {
            (kind, Passing::Value)
        };
        Parameter {
            name: name.into(),
            element: element.into(),
            passing,
        }
    }

    fn is_value(&self) -> bool {
        matches!(self.passing, Passing::Value)
    }

    /// As a C header declares it.
    fn in_c(&self) -> String {
        let (name, element) = (&self.name, c_type(&self.element));
        match &self.passing {
            Passing::Value => format!("{element} {name}"),
            Passing::ReadSlice => format!("const {element} *{name}, size_t {name}_len"),
            Passing::WrittenSlice => format!("{element} *{name}, size_t {name}_len"),
            Passing::Written => format!("{element} *{name}"),
            Passing::WrittenArray(length) => format!("{element} {name}[{length}]"),
        }
    }

    /// As an `extern` block of Rust declares it.
    fn in_rust(&self) -> String {
        let (name, element) = (&self.name, rust_type(&self.element));
        match &self.passing {
            Passing::Value => format!("{name}: {element}"),
            Passing::ReadSlice => format!("{name}: *const {element}, {name}_len: usize"),
            Passing::WrittenSlice => format!("{name}: *mut {element}, {name}_len: usize"),
            Passing::Written => format!("{name}: *mut {element}"),
            Passing::WrittenArray(length) => format!("{name}: *mut [{element}; {length}]"),
        }
    }
}

impl Export {
    /// From the text behind `fn`.
    fn read(text: &str) -> Export {
        let (name, rest) = text.split_once('(').expect("parameters");
        let (parameters, rest) = rest.split_once(") -> ").expect("a result");
        let result = rest.split_whitespace().next().expect("a result");
        let parameters = parameters.split(',').map(str::trim);
        Export {
            name: name.into(),
            parameters: parameters
                .filter(|parameter| !parameter.is_empty())
                .map(Parameter::read)
                .collect(),
            result: result.into(),
        }
    }

    /// Its pointers in their order, each with whether it is only read.
    pub fn pointers(&self) -> Vec<(&str, bool)> {
        let pointers = self.parameters.iter().filter(|p| !p.is_value());
        pointers
            .map(|p| (&p.name[..], matches!(p.passing, Passing::ReadSlice)))
            .collect()
    }

    /// As a C header declares it, on one line.
    pub fn in_c(&self) -> String {
        let parameters: Vec<String> = self.parameters.iter().map(Parameter::in_c).collect();
        let list = match parameters[..] {
            [] => "void".into(),
            _ => parameters.join(", "),
        };
        format!("{} {}({list})", c_type(&self.result), self.name)
    }

    /// As an `extern` block of Rust declares it, on one line.
    pub fn in_rust(&self) -> String {
        let parameters: Vec<String> = self.parameters.iter().map(Parameter::in_rust).collect();
        format!(
            "fn {}({}) -> {}",
            self.name,
            parameters.join(", "),
            self.result
        )
    }
}

/// The type of C that a type of Rattle is to a caller.
fn c_type(element: &str) -> &'static str {
    match element {
        "u8" => "uint8_t",
        "u32" => "uint32_t",
        "u64" => "uint64_t",
        "usize" => "size_t",
        "model::Point" => "struct frontier_point",
        _ => panic!("an exported call has the type {element}; say here what it is in C"),
    }
}

/// The type of the Rust package that it is.
fn rust_type(element: &str) -> &str {
    match element {
        "model::Point" => "PointRecord",
        number => number,
    }
}

/// The numbers that a source has as constants, those of a type by `TYPE::NAME`.
pub fn constants(source: &str) -> BTreeMap<String, usize> {
    let mut owner = String::new();
    let mut found = BTreeMap::new();
    for line in source.lines() {
        if let Some(name) = line.strip_prefix("impl ") {
            owner = format!("{}::", name.trim_end_matches(" {"));
        } else if line == "}" {
            owner.clear();
        }
        let words: Vec<&str> = line.trim().trim_start_matches("pub ").split(' ').collect();
        if let ["const", name, _, "=", value] = words[..] {
            let value = value.trim_end_matches(';').parse();
            let name = name.trim_end_matches(':');
            found.insert(format!("{owner}{name}"), value.expect("a number"));
        }
    }
    found
}

/// The numbers that a specification defines by name, without those that functions give.
pub fn numbers(specification: &str) -> BTreeMap<&str, usize> {
    let lines = specification.lines();
    lines
        .filter_map(|line| line.split_once(" = "))
        .filter(|(name, _)| !name.contains(' '))
        .filter_map(|(name, value)| Some((name, value.parse().ok()?)))
        .collect()
}

/// The fields of a struct as C declares them, each on one line.
pub fn fields_in_c(source: &str, name: &str) -> Vec<String> {
    let (_, rest) = source
        .split_once(&format!("pub struct {name} {{\n"))
        .unwrap_or_else(|| panic!("the struct {name}"));
    let (fields, _) = rest.split_once('}').expect("its end");
    let field = |line: &str| {
        let (name, array) = line.trim().strip_prefix("pub ")?.split_once(": [")?;
        let (element, length) = array.trim_end_matches("],").split_once("; ")?;
        Some(format!("{} {name}[{length}]", c_type(element)))
    };
    fields
        .lines()
        .map(|line| field(line).unwrap_or_else(|| panic!("not an array: {line}")))
        .collect()
}

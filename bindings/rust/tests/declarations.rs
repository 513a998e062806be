//! src/raw.rs beside include/worzubil.h: a C program prints what cc makes of the structs and constants, and the prototypes are compared as
//! text, with the names and types of their parameters.
use std::mem::{align_of, offset_of, size_of};
use std::path::Path;
use std::process::Command;

use worzubil::raw;

const HEADER: &str = include_str!("../../../include/worzubil.h");
const RAW: &str = include_str!("../src/raw.rs");
const LENGTHS: [usize; 6] = [0, 1, 65535, 65536, 65537, usize::MAX];

/// What is told, what Rust makes of it, and the expression that C makes of it.
type Fact = (String, usize, String);

fn size_of_field<T, F>(_: impl FnOnce(&T) -> &F) -> usize {
    size_of::<F>()
}

macro_rules! structs {
    ($($rust:ident $c:ident { $($field:ident)* })*) => {
        vec![$(
            (concat!("size ", stringify!($c)).to_string(), size_of::<raw::$rust>(), format!("sizeof({})", stringify!($c))),
            (concat!("alignment ", stringify!($c)).to_string(), align_of::<raw::$rust>(), format!("_Alignof({})", stringify!($c))),
            $(
                (
                    concat!("offset ", stringify!($c), ".", stringify!($field)).to_string(),
                    offset_of!(raw::$rust, $field),
                    format!("offsetof({}, {})", stringify!($c), stringify!($field)),
                ),
                (
                    concat!("size ", stringify!($c), ".", stringify!($field)).to_string(),
                    size_of_field(|record: &raw::$rust| &record.$field),
                    format!("sizeof((({} *)0)->{})", stringify!($c), stringify!($field)),
                ),
            )*
        )*]
    };
}

macro_rules! constants {
    ($($rust:ident $c:ident)*) => {
        vec![$((stringify!($c).to_string(), raw::$rust, stringify!($c).to_string())),*]
    };
}

fn facts() -> Vec<Fact> {
    let mut facts = structs! {
        Answer worzubil_answer { kind value }
        Located worzubil_located { word bit }
        Step worzubil_step { kind bit remaining }
        Span worzubil_span { kind start length }
        Equation worzubil_equation { coefficients constant }
        Hull worzubil_hull { equations count exact }
        Proposal worzubil_proposal { number hull }
        System worzubil_system { atoms rows rank refuted }
        Prepared worzubil_prepared { number system additions units incidences }
        Region worzubil_region { atoms held cut }
        NewRegion worzubil_new_region { number region }
        Decision worzubil_decision { kind number region }
        Snapshot worzubil_snapshot { initialized atoms held cut }
        Published worzubil_published { number known }
        Ordinals worzubil_ordinals { words }
        Selected worzubil_selected { number rows }
        Inspection worzubil_inspection { kind number held cut forced region known }
        Probed worzubil_probed { number yes undecided kept }
        Checked worzubil_checked { number offset atoms rows }
        Answered worzubil_answered { number length }
        Seen worzubil_seen { kind number held cut forced region }
        Forced worzubil_forced { atom value }
    };
    facts.extend(constants! {
        ANSWERED WORZUBIL_ANSWERED
        NOTHING WORZUBIL_NOTHING
        UNFIT WORZUBIL_UNFIT
        TOO_WIDE WORZUBIL_TOO_WIDE
        TAKEN WORZUBIL_TAKEN
        SAME WORZUBIL_SAME
        AGAINST WORZUBIL_AGAINST
        UNCHANGED WORZUBIL_UNCHANGED
        CHANGED WORZUBIL_CHANGED
        REFUTED WORZUBIL_REFUTED
        REFUSED WORZUBIL_REFUSED
    });
    facts.extend(LENGTHS.map(|length| (format!("room {length}"), raw::room(length), format!("WORZUBIL_ROOM({length}u)"))));
    facts
}

/// A line of a C program, and what it should print.
fn line((what, number, expression): Fact) -> (String, String) {
    (format!("    printf(\"{what} %zu\\n\", (size_t)({expression}));\n"), format!("{what} {number}\n"))
}

/// What a C program of these lines prints.
fn printed(body: &str) -> String {
    let folder = Path::new(env!("CARGO_TARGET_TMPDIR"));
    let (source, program) = (folder.join("layout.c"), folder.join("layout"));
    let text = format!("#include <stdio.h>\n#include \"worzubil.h\"\nint main(void) {{\n{body}    return 0;\n}}\n");
    std::fs::write(&source, text).expect("the folder can be written");
    let include = concat!("-I", env!("CARGO_MANIFEST_DIR"), "/../../include");
    let built = Command::new("cc").args(["-std=c11", include]).arg(&source).arg("-o").arg(&program).status().expect("cc runs");
    assert!(built.success(), "cc refuses {}", source.display());
    String::from_utf8(Command::new(&program).output().expect("the program runs").stdout).expect("ASCII")
}

#[test]
fn structs_and_constants() {
    let (program, want): (String, String) = facts().into_iter().map(line).unzip();
    assert_eq!(want, printed(&program));
}

#[test]
fn every_struct_is_compared() {
    let told = facts().iter().filter(|fact| fact.0.starts_with("alignment")).count();
    assert_eq!(told, HEADER.matches("typedef struct").count());
    assert_eq!(told, RAW.matches("pub struct").count());
}

/// The header without its comments.
fn code(header: &str) -> String {
    header.split("/*").enumerate().map(|(i, text)| if i == 0 { text } else { text.split_once("*/").expect("closed").1 }).collect()
}

/// A type of the header, in Rust.
fn in_rust(c: &str) -> String {
    if let Some(pointed) = c.strip_suffix('*') {
        return match pointed.trim().strip_prefix("const ") {
            Some(base) => format!("*const {}", in_rust(base)),
            None => format!("*mut {}", in_rust(pointed.trim())),
        };
    }
    match c {
        "size_t" => "usize".to_string(),
        "uint64_t" => "u64".to_string(),
        "uint32_t" => "u32".to_string(),
        "uint8_t" => "u8".to_string(),
        "bool" => c.to_string(),
        _ => c.strip_prefix("worzubil_").expect("a type of the header").split('_').map(capital).collect(),
    }
}

fn capital(word: &str) -> String {
    word[..1].to_uppercase() + &word[1..]
}

/// A parameter of the header, in Rust.
fn parameter(c: &str) -> String {
    let name = c.rsplit([' ', '*']).next().expect("a name");
    format!("{name}: {}", in_rust(c[..c.len() - name.len()].trim()))
}

/// A prototype of the header, in Rust: the text before its parenthesis, and what stands within it.
fn prototype(before: &str, parameters: &str) -> String {
    let declared = before.rsplit([';', '{', '}']).next().expect("a prototype").lines().filter(|line| !line.starts_with('#'));
    let words: Vec<String> = declared.flat_map(str::split_whitespace).map(str::to_string).collect();
    let (name, result) = words.split_last().expect("a name");
    let parameters = parameters.split_whitespace().collect::<Vec<_>>().join(" ");
    let list: Vec<String> = parameters.split(", ").filter(|&c| c != "void").map(parameter).collect();
    let result = if result == ["void"] { String::new() } else { format!(" -> {}", in_rust(&result.join(" "))) };
    format!("{name}({}){result}", list.join(", "))
}

fn header_prototypes() -> Vec<String> {
    let code = code(HEADER);
    let opens = code.match_indices('(').map(|(at, _)| at);
    let named =
        |at: usize| code[..at].rsplit(|c: char| !c.is_alphanumeric() && c != '_').next().is_some_and(|n| n.starts_with("worzubil_"));
    opens.filter(|&at| named(at)).map(|at| prototype(&code[..at], code[at + 1..].split_once(')').expect("closed").0)).collect()
}

fn raw_prototypes() -> Vec<String> {
    let declared = RAW.split("pub fn ").skip(1).filter(|text| text.starts_with("worzubil_"));
    declared
        .map(|text| text.split(';').next().expect("a declaration").split_whitespace().collect::<Vec<_>>().join(" "))
        .map(|text| text.replace("( ", "(").replace(", )", ")"))
        .collect()
}

#[test]
fn prototypes() {
    assert_eq!(header_prototypes(), raw_prototypes());
    assert_eq!(raw_prototypes().len(), 39);
}

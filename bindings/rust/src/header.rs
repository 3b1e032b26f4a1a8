//! Holds the table of `ffi` against `include/piongseut.h`: each row as a static
//! assertion of C, which a C compiler reads with the header.

use crate::ffi;
use std::io::Write;
use std::path::{Path, PathBuf};
use std::process::{Command, Stdio};

/// How a type of the table is written in C.
pub trait InC {
    fn in_c() -> String;
}

macro_rules! written {
    ($( $kind:ty: $in_c:literal ),*) => {
        $( impl InC for $kind { fn in_c() -> String { $in_c.to_string() } } )*
    };
}

written!(u8: "uint8_t", u16: "uint16_t", u32: "uint32_t", usize: "size_t");

impl<T: InC> InC for *const T {
    fn in_c() -> String {
        format!("const {} *", T::in_c())
    }
}

impl<T: InC> InC for *mut T {
    fn in_c() -> String {
        format!("{} *", T::in_c())
    }
}

/// As it stands behind the place of a name: `T (*)[N]` is a pointer to it.
impl<T: InC, const N: usize> InC for [T; N] {
    fn in_c() -> String {
        format!("{}[{N}]", T::in_c())
    }
}

fn holds(condition: &str, what: &str) -> String {
    format!("_Static_assert({condition}, \"{what}\");\n")
}

pub fn constant(name: &str, value: u64) -> String {
    let name = format!("PIONGSEUT_{name}");
    holds(&format!("{name} == {value}"), &name)
}

pub fn whole(name: &str, size: usize, align: usize) -> String {
    let sizes = format!("sizeof({name}) == {size} && _Alignof({name}) == {align}");
    holds(&sizes, name)
}

/// Where the field stands, and its type, by that of a pointer to it.
pub fn field(of: &str, name: &str, kind: &str, at: usize) -> String {
    let pointer = match kind.find('[') {
        Some(array) => format!("{} (*){}", &kind[..array], &kind[array..]),
        None => format!("{kind} *"),
    };
    let what = format!("{of}.{name}");
    holds(&format!("offsetof({of}, {name}) == {at}"), &what)
        + &holds(&is(&format!("&(({of} *)0)->{name}"), &pointer), &what)
}

pub fn function(name: &str, back: &str, lent: &[String]) -> String {
    let lent = if lent.is_empty() {
        "void".to_string()
    } else {
        lent.join(", ")
    };
    holds(
        &is(&format!("&{name}"), &format!("{back} (*)({lent})")),
        name,
    )
}

fn is(value: &str, kind: &str) -> String {
    format!("_Generic({value}, {kind}: 1, default: 0)")
}

/// Where the header is, looked for as `build.rs` looks for the archive: in the
/// folder that PIONGSEUT_INCLUDE names, else where `pkg-config` says that it was
/// installed, else in the repository.
fn folder() -> PathBuf {
    if let Some(named) = std::env::var_os("PIONGSEUT_INCLUDE") {
        return named.into();
    }
    let asked = Command::new("pkg-config")
        .args(["--variable=includedir", "piongseut"])
        .output();
    match asked {
        Ok(said) if said.status.success() => String::from_utf8_lossy(&said.stdout).trim().into(),
        _ => Path::new(env!("CARGO_MANIFEST_DIR")).join("../../include"),
    }
}

#[test]
fn the_version_is_the_crates_own() {
    let version = [ffi::VERSION_MAJOR, ffi::VERSION_MINOR, ffi::VERSION_PATCH];
    let version = version.map(|part| part.to_string()).join(".");
    assert_eq!(version, env!("CARGO_PKG_VERSION"));
}

#[test]
fn the_header_says_the_same() {
    let compiler = std::env::var("CC").unwrap_or_else(|_| "cc".to_string());
    let mut asked = Command::new(&compiler)
        .args(["-std=c11", "-fsyntax-only", "-x", "c", "-I"])
        .arg(folder())
        .arg("-")
        .stdin(Stdio::piped())
        .stderr(Stdio::piped())
        .spawn()
        .unwrap_or_else(|why| panic!("the C compiler {compiler} (CC names another): {why}"));
    let file = format!("#include \"piongseut.h\"\n{}", ffi::in_c());
    let mut input = asked.stdin.take().expect("a pipe");
    input
        .write_all(file.as_bytes())
        .expect("a compiler that reads");
    drop(input);
    let said = asked.wait_with_output().expect("a compiler that ends");
    let complaints = String::from_utf8_lossy(&said.stderr);
    assert!(
        said.status.success(),
        "header and crate differ:\n{complaints}"
    );
}

//! Parses, formats and resolves documents of the WebAssembly Composition language (WAC), in memory.
//!
//! It calls the library `libwac.a`, which is written in Rattle and proved: it doesn't crash, a text is rejected only
//! where it is no document, and an error has the place of the first fault. What this crate adds to it isn't proved.
//!
//! ```
//! assert_eq!(
//!     wac_front::tidy("package a:b; let x = y; // why").unwrap(),
//!     "package a:b;\n\nlet x = y; // why\n"
//! );
//! let error = wac_front::parse_error("package a:b; let x y;").unwrap();
//! assert_eq!(error.message, "expected `=`, found identifier");
//! assert_eq!(error.span, Some(19..20));
//! ```
//!
//! Any thread may call, and several at once. Brackets may nest 256 deep, a brace counting as two, for which a stack of
//! 512 KB suffices; [`run`] takes another limit.
#![warn(missing_docs)]

mod ffi;

use std::error;
use std::fmt;
use std::ops::Range;

/// The limit of nested brackets of every function but [`run`].
pub const DEFAULT_LIMIT: usize = 256;

/// What is done with a text.
#[derive(Clone, Copy, Debug, PartialEq, Eq)]
pub enum Word {
    /// Lists the tokens and faults.
    Tokens,
    /// Prints the document in the one layout.
    Fmt,
    /// Prints the tree of the document as JSON.
    Json,
    /// Lists the nodes, arguments and exports of the graph that the document describes.
    Resolve,
    /// Lists the foreign packages that the document mentions.
    Packages,
    /// Tests whether the document is in the one layout.
    Check,
    /// Prints the document in the one layout, with every comment in its place.
    Tidy,
    /// Prints the first error as a line of JSON, or nothing where there is none.
    Errors,
}

impl Word {
    /// Its number in `include/wac.h`.
    fn number(self) -> u32 {
        match self {
            Word::Tokens => 0,
            Word::Fmt => 1,
            Word::Json => 2,
            Word::Resolve => 3,
            Word::Packages => 4,
            Word::Check => 5,
            Word::Tidy => 6,
            Word::Errors => 7,
        }
    }
}

/// Why nothing was made of a text.
#[derive(Clone, Copy, Debug, PartialEq, Eq)]
pub enum ErrorKind {
    /// The text is rejected.
    Rejected,
    /// Memory ran out.
    OutOfMemory,
    /// Brackets are nested deeper than the limit.
    NestedTooDeep,
    /// A package that was handed over is none.
    BadPackage,
}

/// A package that a document may mention.
#[derive(Clone, Copy, Debug, PartialEq, Eq)]
pub enum Package<'a> {
    /// A document that declares it.
    Document(&'a str),
    /// A component, and the name of its package.
    Component {
        /// The name, as `a:b` or `a:b@1.0.0`.
        name: &'a str,
        /// The bytes of the component.
        bytes: &'a [u8],
    },
}

/// Why nothing was made of a text.
#[derive(Clone, Debug, PartialEq, Eq)]
pub struct Error {
    /// What kind of error it is.
    pub kind: ErrorKind,
    /// The place that is at fault, in bytes of the text, if there is one. At the end of an empty text it is the byte
    /// after it. With [`ErrorKind::BadPackage`] it is in bytes of the packages as they were handed over: eight bytes are
    /// before each document, and before each name of a component and each component.
    pub span: Option<Range<usize>>,
    /// What is wrong.
    pub message: String,
}

impl fmt::Display for Error {
    fn fmt(&self, f: &mut fmt::Formatter<'_>) -> fmt::Result {
        f.write_str(&self.message)
    }
}

impl error::Error for Error {}

/// What a word writes of a text whose brackets are nested no deeper than a limit, which is not 0.
///
/// # Errors
///
/// See [`ErrorKind`].
///
/// # Panics
///
/// The limit is 0.
pub fn run(word: Word, text: &str, limit: usize) -> Result<String, Error> {
    ffi::run(word.number(), text, limit)
}

/// Why a text is no document. `None` where it is one.
///
/// ```
/// assert!(wac_front::parse_error("package a:b;").is_none());
/// ```
#[must_use]
pub fn parse_error(text: &str) -> Option<Error> {
    run(Word::Packages, text, DEFAULT_LIMIT).err()
}

/// The document in the one layout, without the comments that are no documentation.
///
/// # Errors
///
/// The text is no document.
pub fn format(text: &str) -> Result<String, Error> {
    run(Word::Fmt, text, DEFAULT_LIMIT)
}

/// The document in the one layout, with every comment in its place.
///
/// # Errors
///
/// The text is no document.
pub fn tidy(text: &str) -> Result<String, Error> {
    run(Word::Tidy, text, DEFAULT_LIMIT)
}

/// Whether the document is in the one layout, without comments that are no documentation.
///
/// ```
/// assert_eq!(wac_front::is_formatted("package a:b;\n\nlet x = y;\n"), Ok(true));
/// assert_eq!(wac_front::is_formatted("package a:b; let x = y;"), Ok(false));
/// ```
///
/// # Errors
///
/// The text is no document.
pub fn is_formatted(text: &str) -> Result<bool, Error> {
    match run(Word::Check, text, DEFAULT_LIMIT) {
        Ok(_) => Ok(true),
        Err(error) if error.kind == ErrorKind::Rejected && error.span.is_none() => Ok(false),
        Err(error) => Err(error),
    }
}

/// The tree of the document as a line of JSON.
///
/// # Errors
///
/// The text is no document.
pub fn json(text: &str) -> Result<String, Error> {
    run(Word::Json, text, DEFAULT_LIMIT)
}

/// The first error as a line of JSON: of parsing, or of resolving where the document mentions no foreign package.
/// `None` where there is none.
///
/// ```
/// assert_eq!(wac_front::first_error("package a:b; import x: func();"), Ok(None));
/// let line = wac_front::first_error("package a:b; export x;").unwrap().unwrap();
/// assert!(line.contains("\"code\":\"wac::undefined-name\""));
/// ```
///
/// # Errors
///
/// Brackets are nested too deep, or memory ran out.
pub fn first_error(text: &str) -> Result<Option<String>, Error> {
    let line = run(Word::Errors, text, DEFAULT_LIMIT)?;
    Ok(Some(line).filter(|line| !line.is_empty()))
}

/// The foreign packages that the document mentions, as `NAME` or `NAME@VERSION`.
///
/// ```
/// let text = "package a:b; let x = new c:d@1.0.0 {};";
/// assert_eq!(wac_front::packages(text).unwrap(), ["c:d@1.0.0"]);
/// ```
///
/// # Errors
///
/// The text is no document.
pub fn packages(text: &str) -> Result<Vec<String>, Error> {
    lines(Word::Packages, text)
}

/// The graph that the document describes, as a line of JSON. It may mention the packages that other documents declare
/// and those of components, in any order.
///
/// ```
/// use wac_front::Package;
/// let text = "package a:b; let x = new c:d { ... };";
/// let package = Package::Document("package c:d; world w { import y: func(); }");
/// assert!(wac_front::graph(text, &[package]).unwrap().contains("\"package\":\"c:d\""));
/// assert_eq!(wac_front::graph(text, &[]).unwrap_err().span, Some(25..28));
/// ```
///
/// # Errors
///
/// The text is no document, the document breaks a rule, or what is handed over is no package.
pub fn graph(text: &str, packages: &[Package<'_>]) -> Result<String, Error> {
    let mut frames = Vec::new();
    for package in packages {
        match *package {
            Package::Document(text) => push_frame(&mut frames, text.as_bytes()),
            Package::Component { name, bytes } => {
                push_frame(&mut frames, name.as_bytes());
                push_frame(&mut frames, bytes);
            }
        }
    }
    ffi::graph(text, &frames, DEFAULT_LIMIT)
}

/// Appends a frame.
fn push_frame(frames: &mut Vec<u8>, bytes: &[u8]) {
    frames.extend_from_slice(&(bytes.len() as u64).to_le_bytes());
    frames.extend_from_slice(bytes);
}

/// The lines of the graph that the document describes, with no packages supplied, as `wac resolve` writes them.
///
/// ```
/// let text = "package a:b; import y: func();";
/// assert_eq!(wac_front::resolve(text).unwrap(), ["0 import y: function [y]"]);
/// ```
///
/// # Errors
///
/// The text is no document, or the document breaks a rule.
pub fn resolve(text: &str) -> Result<Vec<String>, Error> {
    lines(Word::Resolve, text)
}

/// A line `OFFSET+LEN TEXT` for each token or fault of a text.
///
/// # Errors
///
/// The text has a character that none may have.
pub fn tokens(text: &str) -> Result<Vec<String>, Error> {
    lines(Word::Tokens, text)
}

/// The lines that a word writes. Each ends in LF, and a CR before that is part of it.
fn lines(word: Word, text: &str) -> Result<Vec<String>, Error> {
    let written = run(word, text, DEFAULT_LIMIT)?;
    Ok(written.split_terminator('\n').map(str::to_owned).collect())
}

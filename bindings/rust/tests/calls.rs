//! What calls return.

use wac_front::{
    first_error, format, graph, is_formatted, json, packages, parse_error, resolve, run, tidy,
    tokens,
};
use wac_front::{ErrorKind, Package, Word, DEFAULT_LIMIT};

const FIRST: &str = "package a:b; let x = y; export x.z; // why";
const FIRST_PRINTED: &str = "package a:b;\n\nlet x = y;\n\nexport x.z;\n";

#[test]
fn documents_are_formatted() {
    assert_eq!(format(FIRST).unwrap(), FIRST_PRINTED);
    assert_eq!(
        tidy(FIRST).unwrap(),
        "package a:b;\n\nlet x = y;\n\nexport x.z; // why\n"
    );
    assert_eq!(is_formatted(FIRST), Ok(false));
    assert_eq!(is_formatted(FIRST_PRINTED), Ok(true));
    assert!(is_formatted("package").is_err());
}

#[test]
fn lists_have_a_line_each() {
    assert_eq!(tokens("x:string").unwrap(), ["0+8 package name"]);
    assert_eq!(
        packages("package a:b; let x = new c:d {};").unwrap(),
        ["c:d"]
    );
    assert_eq!(
        resolve("package a:b; import y: func();").unwrap(),
        ["0 import y: function [y]"]
    );
}

#[test]
fn errors_have_a_place() {
    let error = format("package a:b; let x y;").unwrap_err();
    assert_eq!(error.kind, ErrorKind::Rejected);
    assert_eq!(error.span, Some(19..20));
    assert_eq!(error.to_string(), "expected `=`, found identifier");
    assert_eq!(
        parse_error("/* é */ package a:b; let x y;").unwrap().span,
        Some(28..29)
    );
    assert_eq!(parse_error("").unwrap().span, Some(0..1));
    assert!(first_error("package a:b; let x y;")
        .unwrap()
        .unwrap()
        .contains("\"offset\":19,"));
}

#[test]
fn long_answers_are_whole() {
    let text = format!("package a:b; {}", "let x = y;".repeat(1000));
    let printed = format!("package a:b;\n{}", "\nlet x = y;\n".repeat(1000));
    assert_eq!(format(&text).unwrap(), printed);
    let tree = json(&text).unwrap();
    assert!(tree.len() > 2 * text.len() + 256);
    assert!(tree.starts_with('{') && tree.ends_with("}\n"));
}

#[test]
fn long_messages_are_whole() {
    let name = "x".repeat(1000);
    let error = resolve(&format!("package a:b; export {name};")).unwrap_err();
    assert_eq!(error.message, format!("undefined name `{name}`"));
}

#[test]
fn packages_are_handed_over() {
    let text = "package a:b; let x = new c:d { ... };";
    let one = Package::Document("package c:d; world w { import e:f/i; }");
    let two = Package::Document("package e:f; interface i { h: func(); }");
    assert!(graph(text, &[one, two])
        .unwrap()
        .ends_with("\"imports\":[{\"name\":\"e:f/i\",\"kind\":\"instance\",\"by\":[0]}]}\n"));
    let error = graph(text, &[one]).unwrap_err();
    assert_eq!(
        (error.kind, error.message.as_str()),
        (ErrorKind::BadPackage, "unknown package")
    );
    assert_eq!(error.span, Some(8 + 30..8 + 33));
}

/// A component that imports a function `y` and exports it as `f`: a type section with `func()`, an import section and
/// an export section.
const COMPONENT: &[u8] = b"\0asm\x0d\0\x01\0\x07\x05\x01\x40\0\x01\0\x0a\x06\x01\0\x01y\x01\0\x0b\x07\x01\0\x01f\x01\0\0";

#[test]
fn components_are_handed_over() {
    let text = "package a:b; let x = new c:d@1.0.0 { ... }; export x.f;";
    let component = |bytes| {
        let name = "c:d@1.0.0";
        [Package::Component { name, bytes }]
    };
    assert!(graph(text, &component(COMPONENT))
        .unwrap()
        .ends_with("\"imports\":[{\"name\":\"y\",\"kind\":\"function\",\"by\":[0]}]}\n"));
    let error = graph(text, &component(&COMPONENT[..9])).unwrap_err();
    assert_eq!(error.kind, ErrorKind::BadPackage);
    assert_eq!(error.span, Some(8 + 9 + 8..8 + 9 + 8 + 9));
}

#[test]
fn nesting_is_limited() {
    let nested = |depth| {
        format!(
            "package a:b; let x = {}y{};",
            "(".repeat(depth),
            ")".repeat(depth)
        )
    };
    assert!(format(&nested(DEFAULT_LIMIT)).is_ok());
    let error = format(&nested(DEFAULT_LIMIT + 1)).unwrap_err();
    assert_eq!(error.kind, ErrorKind::NestedTooDeep);
    assert_eq!(error.span, Some(21 + DEFAULT_LIMIT..22 + DEFAULT_LIMIT));
    assert!(run(Word::Fmt, &nested(300), 300).is_ok());
}

#[test]
fn threads_may_call() {
    let threads: Vec<_> = (0..8)
        .map(|_| std::thread::spawn(|| format(FIRST).unwrap()))
        .collect();
    for thread in threads {
        assert_eq!(thread.join().unwrap(), FIRST_PRINTED);
    }
}

//! The structs of the interface against `c/exchange.h`: a C compiler is asked whether every size and
//! every offset is the same. Rust needs a C compiler to link, so there is one.

use std::fmt::Write;
use std::mem::{offset_of, size_of};
use std::path::Path;
use std::process::Command;

use compare::interface::{Answer, Call, Chain, Job, Record, Ticket};

/// Lines of C that state the size of a struct and the offset and size of each of its fields.
macro_rules! stated {
    ($source:ident, $name:literal, $struct:ty, $($field:ident),*) => {
        let size = size_of::<$struct>();
        writeln!($source, "_Static_assert(sizeof(struct {}) == {size}, \"{}\");", $name, $name)?;
        $(
            let offset = offset_of!($struct, $field);
            let field = stringify!($field);
            writeln!(
                $source,
                "_Static_assert(offsetof(struct {}, {field}) == {offset}, \"{}.{field}\");",
                $name, $name
            )?;
        )*
    };
}

fn statements() -> Result<String, std::fmt::Error> {
    let mut source = "#include \"exchange.h\"\n".to_string();
    stated!(
        source,
        "exchange_rule",
        Record,
        number,
        priority,
        action,
        word_a,
        word_b
    );
    stated!(source, "exchange_ticket", Ticket, board, rule, length);
    stated!(source, "exchange_chain", Chain, places, length);
    stated!(source, "exchange_job", Job, busy, rule, chain, made);
    stated!(source, "exchange_call", Call, letter, ticket, rule, subject);
    stated!(
        source,
        "exchange_answer",
        Answer,
        refusal,
        value,
        number,
        ticket
    );
    Ok(source)
}

/// Whether the C compiler takes the source.
fn compiles(name: &str, source: &str) -> bool {
    let header_folder = Path::new(env!("CARGO_MANIFEST_DIR")).join("../c");
    let file = Path::new(env!("CARGO_TARGET_TMPDIR")).join(format!("{name}.c"));
    std::fs::write(&file, source).expect("the folder for tests can be written");
    Command::new("cc")
        .args(["-std=c11", "-fsyntax-only", "-I"])
        .arg(header_folder)
        .arg(&file)
        .status()
        .expect("there is a C compiler")
        .success()
}

#[test]
fn sizes_and_offsets_are_those_of_the_header() {
    let source = statements().unwrap();
    assert!(compiles("layout", &source), "{source}");
    // A compiler that takes everything would show nothing.
    let wrong = source.replace(
        "sizeof(struct exchange_rule) == 24",
        "sizeof(struct exchange_rule) == 23",
    );
    assert_ne!(wrong, source);
    assert!(!compiles("wrong_layout", &wrong));
}

/// The same in plain numbers, for whoever writes another interface.
#[test]
fn sizes_and_offsets_in_numbers() {
    assert_eq!(size_of::<Record>(), 24);
    assert_eq!(offset_of!(Record, number), 0);
    assert_eq!(offset_of!(Record, priority), 2);
    assert_eq!(offset_of!(Record, action), 4);
    assert_eq!(offset_of!(Record, word_a), 8);
    assert_eq!(offset_of!(Record, word_b), 16);
    assert_eq!(size_of::<Ticket>(), 6);
    assert_eq!((size_of::<Chain>(), offset_of!(Chain, length)), (962, 960));
    assert_eq!((size_of::<Job>(), offset_of!(Job, rule)), (1000, 8));
    assert_eq!((offset_of!(Job, chain), offset_of!(Job, made)), (32, 994));
    assert_eq!((size_of::<Call>(), offset_of!(Call, ticket)), (40, 2));
    assert_eq!((offset_of!(Call, rule), offset_of!(Call, subject)), (8, 32));
    assert_eq!((size_of::<Answer>(), offset_of!(Answer, ticket)), (16, 10));
}

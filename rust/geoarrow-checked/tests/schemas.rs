//! Schemas in memory, by pointers to structures that are made here.
mod common;

use common::refused;
use geoarrow_checked::{
    check, check_field, check_schema, field_line, is_schema, schema_lines, schema_stream,
};
use geoarrow_checked::{ArrowSchema, Error, Options};
use std::ffi::CStr;
use std::ptr;
use std::sync::atomic::{AtomicUsize, Ordering};

const TEXT: &str = r#"{"name":"t","nullable":true,"type":"utf8"}"#;
const GEO: &[u8] = br#"{"version":"1.1.0"}"#;

static RELEASED: AtomicUsize = AtomicUsize::new(0);

unsafe extern "C" fn release(schema: *mut ArrowSchema) {
    RELEASED.fetch_add(1, Ordering::SeqCst);
    (*schema).release = None;
}

/// A structure that borrows what it leads to.
fn structure(format: &CStr, name: Option<&CStr>, children: &mut [*mut ArrowSchema]) -> ArrowSchema {
    ArrowSchema {
        format: format.as_ptr(),
        name: name.map_or(ptr::null(), CStr::as_ptr),
        metadata: ptr::null(),
        flags: 2,
        n_children: children.len() as i64,
        children: children.as_mut_ptr(),
        dictionary: ptr::null_mut(),
        release: Some(release),
        private_data: ptr::null_mut(),
    }
}

fn text_column() -> ArrowSchema {
    structure(c"u", Some(c"t"), &mut [])
}

/// Metadata of one entry.
fn metadata(key: &[u8], text: &[u8]) -> Vec<u8> {
    let count = |count: usize| (count as i32).to_ne_bytes();
    let (before, between) = (count(key.len()), count(text.len()));
    [&count(1), &before[..], key, &between, text].concat()
}

#[test]
fn a_schema_and_its_column() {
    let (mut one, mut other) = (text_column(), structure(c"g", None, &mut []));
    let mut children = [&raw mut one, &raw mut other];
    let mut schema = structure(c"+s", None, &mut children);
    let geo = metadata(b"geo", GEO);
    schema.metadata = geo.as_ptr().cast();
    let options = Options::default();
    unsafe {
        let stream = schema_stream(&schema).unwrap();
        let report = check_schema(&schema, options).unwrap();
        assert_eq!(check(&stream, options), Ok(report.clone()));
        assert_eq!(report.lines().count(), 4);
        assert_eq!(report.matches(r#","in":"geo","#).count(), 2, "{report}");
        let unnamed = r#"{"name":"","nullable":true,"type":"float64"}"#;
        assert_eq!(schema_lines(&schema), Ok(format!("{TEXT}\n{unnamed}\n")));
        assert_eq!(field_line(&one), Ok(TEXT.to_owned()));
        assert_eq!(check_field(&one, options), check(TEXT.as_bytes(), options));
        let of_structs = field_line(&schema).unwrap(); // a column of the same structure
        assert!(of_structs.contains(&format!(r#""type":{{"struct":[{TEXT},{unnamed}]}}"#)));
    }
    let all = [&schema, &one, &other];
    assert!(all.iter().all(|it| it.release.is_some()));
    assert_eq!(RELEASED.load(Ordering::SeqCst), 0);
}

type Change = fn(&mut ArrowSchema);

/// Each call refuses a column, and a schema whose second column it is, because of what is found.
fn are_refused(column: *const ArrowSchema, found: &str) {
    let mut first = text_column();
    let mut children = [&raw mut first, column.cast_mut()];
    let schema = structure(c"+s", None, &mut children);
    let options = Options {
        infer: true,
        notes: true,
    };
    for (index, error) in unsafe {
        [
            (1, check_schema(&schema, options).unwrap_err()),
            (1, schema_lines(&schema).unwrap_err()),
            (1, schema_stream(&schema).unwrap_err()),
            (0, check_field(column, options).unwrap_err()),
            (0, field_line(column).unwrap_err()),
        ]
    } {
        let why = refused::<()>(Err(error));
        assert_eq!((why.code(), why.found()), ("BadSchema", Some(found)));
        assert_eq!(why.index(), Some(index), "{found}");
    }
}

#[test]
fn refused_structures() {
    let changes: [(Change, &str); 7] = [
        (|it| it.release = None, "a structure that is released"),
        (|it| it.format = ptr::null(), "a format that is NULL"),
        (|it| it.format = c"!".as_ptr(), "an unknown type"),
        (
            |it| it.format = c"i\xff".as_ptr(),
            "a text that is not UTF-8",
        ),
        (
            |it| it.n_children = -1,
            "a number of children that is negative, or more than 2^28",
        ),
        (
            |it| (it.n_children, it.children) = (1, ptr::null_mut()),
            "children that are NULL",
        ),
        (
            |it| it.metadata = c"\xff\xff\xff\xff".as_ptr(),
            "a negative number in metadata",
        ),
    ];
    for (change, found) in changes {
        let mut column = text_column();
        change(&mut column);
        are_refused(&column, found);
    }
    are_refused(ptr::null(), "a structure that is NULL");
    let of_null = refused(unsafe { check_schema(ptr::null(), Options::default()) });
    assert_eq!((of_null.code(), of_null.index()), ("BadSchema", None));
}

#[test]
fn a_circle_is_refused() {
    let mut circle = structure(c"+l", None, &mut []);
    let mut itself = [&raw mut circle];
    circle.n_children = 1;
    circle.children = itself.as_mut_ptr();
    are_refused(&raw const circle, "structures that are nested too deep");
}

#[test]
fn what_is_to_be_read_as_a_schema() {
    let extension = metadata(b"ARROW:extension:name", b"geoarrow.point");
    let named = |name| structure(c"+s", name, &mut []);
    let extended = ArrowSchema {
        metadata: extension.as_ptr().cast(),
        ..named(None)
    };
    for (schema, without_name, with_name) in [
        (named(None), true, true),
        (named(Some(c"")), true, true),
        (named(Some(c"s")), false, true),
        (extended, false, false),
        (text_column(), false, false),
        (
            ArrowSchema {
                release: None,
                ..text_column()
            },
            true,
            true,
        ), // (it is refused)
    ] {
        assert_eq!(
            unsafe { is_schema(&schema, false) },
            Ok(without_name),
            "{schema:?}"
        );
        assert_eq!(
            unsafe { is_schema(&schema, true) },
            Ok(with_name),
            "{schema:?}"
        );
    }
    assert_eq!(unsafe { is_schema(ptr::null(), false) }, Ok(true));
}

#[test]
fn errors_in_boxes() {
    let boxed = || -> Result<String, Box<dyn std::error::Error + Send + Sync>> {
        Ok(unsafe { check_schema(ptr::null(), Options::default()) }?)
    };
    let error = boxed().unwrap_err();
    assert_eq!(
        error.to_string(),
        "error[BadSchema]: found a structure that is NULL; expected a structure"
    );
    assert!(matches!(error.downcast_ref(), Some(Error::Refused(_))));
}

use super::made;
use crate::Error;
use arrow_schema::ArrowError;

#[test]
fn what_arrow_says() {
    let error = made(|| Err(ArrowError::SchemaError("s".into()))).unwrap_err();
    assert_eq!(error, Error::Arrow("Schema error: s".into()));
    let error = made(|| panic!("as arrow-rs may")).unwrap_err();
    assert_eq!(
        error,
        Error::Arrow("arrow-rs panics, as at a name with a NUL".into())
    );
}

//! What counts of a column and its sources, as its line says it.
use crate::error::Error;
use crate::finding::is_of_column;
use crate::members::{items, members, Value};
use std::fmt::{self, Display, Formatter};

/// A source of what is said of a column (docs/FORMAT.md, 5).
#[derive(Debug, Clone, Copy, PartialEq, Eq, Hash)]
pub enum Source {
    /// Its element in the footer of a Parquet file.
    Element,
    /// Its member in the metadata at the key `geo`.
    Geo,
    /// Its field, by its extension name and metadata.
    Field,
}

/// What a source says against what counts.
#[derive(Debug, Clone, Copy, PartialEq, Eq, Hash)]
pub enum Verdict {
    /// The same.
    Agree,
    /// Another.
    Contradict,
    /// Nothing decides whether it is the same.
    NotCompared,
}

impl Source {
    fn word(self) -> &'static str {
        match self {
            Source::Element => "element",
            Source::Geo => "geo",
            Source::Field => "field",
        }
    }

    fn of(word: &str) -> Option<Source> {
        [Source::Element, Source::Geo, Source::Field]
            .into_iter()
            .find(|source| source.word() == word)
    }
}

impl Verdict {
    fn word(self) -> &'static str {
        match self {
            Verdict::Agree => "agree",
            Verdict::Contradict => "contradict",
            Verdict::NotCompared => "not compared",
        }
    }

    fn of(word: &str) -> Option<Verdict> {
        [Verdict::Agree, Verdict::Contradict, Verdict::NotCompared]
            .into_iter()
            .find(|verdict| verdict.word() == word)
    }
}

impl Display for Source {
    fn fmt(&self, f: &mut Formatter<'_>) -> fmt::Result {
        f.write_str(self.word())
    }
}

impl Display for Verdict {
    fn fmt(&self, f: &mut Formatter<'_>) -> fmt::Result {
        f.write_str(self.word())
    }
}

/// What counts of the CRS, the edges and the encoding of a column, which source says it, and what
/// the other sources say against it (docs/FORMAT.md, 2.5 and 5.7). A column that holds no
/// geometries has none of these.
#[derive(Debug, Clone, PartialEq, Eq, Hash, Default)]
pub struct Facts {
    /// The source of the CRS, where one says it.
    pub crs_from: Option<Source>,
    /// Whether a source says that the CRS is not known. The CRS itself stands in the line, at
    /// `crs`.
    pub is_crs_unknown: bool,
    /// The type of the CRS, as `projjson`.
    pub crs_type: Option<String>,
    /// The edges of geometries, as `planar`.
    pub edges: Option<String>,
    /// The source of the edges, where one says them.
    pub edges_from: Option<Source>,
    /// The source of the encoding, where one says it.
    pub type_from: Option<Source>,
    /// The box that the GeoParquet metadata say, as JSON.
    pub bbox: Option<String>,
    /// The epoch that they say, as JSON.
    pub epoch: Option<String>,
    /// The geometry types that they say, or else the one that the field says by its kind.
    pub geometry_types: Vec<String>,
    /// The orientation of rings that they say.
    pub orientation: Option<String>,
    /// What the other sources say: of `crs`, `edges` or `encoding`, the source, and its verdict.
    pub verdicts: Vec<(String, Source, Verdict)>,
}

impl Facts {
    fn read(line: &str) -> Option<Facts> {
        let mut facts = Facts::default();
        for (key, value) in members(line)? {
            match (key.as_str(), value) {
                ("crs_from", Value::Text(word)) => facts.crs_from = Some(Source::of(&word)?),
                ("crs", value) => facts.is_crs_unknown = value == Value::Other("null"),
                ("crs_type", Value::Text(text)) => facts.crs_type = Some(text),
                ("edges", Value::Text(text)) => facts.edges = Some(text),
                ("edges_from", Value::Text(word)) => facts.edges_from = Some(Source::of(&word)?),
                ("type_from", Value::Text(word)) => facts.type_from = Some(Source::of(&word)?),
                ("bbox", Value::Array(text)) => facts.bbox = Some(text.to_owned()),
                ("epoch", Value::Number(whole)) => facts.epoch = Some(whole.to_string()),
                ("epoch", Value::Other(text)) => facts.epoch = Some(text.to_owned()),
                ("geometry_types", Value::Array(array)) => facts.geometry_types = texts(array)?,
                ("orientation", Value::Text(text)) => facts.orientation = Some(text),
                ("verdicts", Value::Other(object)) => facts.verdicts = verdicts(object)?,
                ("crs_from" | "crs_type" | "edges" | "edges_from" | "type_from", _) => return None,
                ("bbox" | "epoch" | "geometry_types" | "orientation" | "verdicts", _) => {
                    return None
                }
                _ => {}
            }
        }
        Some(facts)
    }
}

/// The texts of an array of texts.
fn texts(array: &str) -> Option<Vec<String>> {
    let text = |item| match item {
        Value::Text(text) => Some(text),
        _ => None,
    };
    items(array)?.into_iter().map(text).collect()
}

/// The verdicts of an object of objects.
fn verdicts(object: &str) -> Option<Vec<(String, Source, Verdict)>> {
    let mut found = Vec::new();
    for (fact, value) in members(object)? {
        let Value::Other(sources) = value else {
            return None;
        };
        for (source, verdict) in members(sources)? {
            let Value::Text(word) = verdict else {
                return None;
            };
            found.push((fact.clone(), Source::of(&source)?, Verdict::of(&word)?));
        }
    }
    Some(found)
}

/// Returns what counts of a column, of which this is the line of a report.
///
/// ```
/// use geoarrow_checked::{check, column_facts, Options, Source};
///
/// let line = br#"{"metadata":{"ARROW:extension:metadata":"{\"crs\":\"EPSG:4326\"}","ARROW:extension:name":"geoarrow.wkb"},"name":"g","nullable":true,"type":"binary"}"#;
/// let report = check(line, Options::default())?;
/// let facts = column_facts(report.lines().next().unwrap_or_default())?;
/// assert_eq!((facts.crs_from, facts.edges.as_deref()), (Some(Source::Field), Some("planar")));
/// # Ok::<(), geoarrow_checked::Error>(())
/// ```
///
/// # Errors
///
/// [`Error::Line`] with the line, where it is not that of a column, or a part of it is not read.
pub fn column_facts(line: &str) -> Result<Facts, Error> {
    let unread = || Error::Line(line.to_owned());
    if !is_of_column(line) {
        return Err(unread());
    }
    Facts::read(line).ok_or_else(unread)
}

#[cfg(test)]
mod tests {
    use super::{column_facts, Facts, Source, Verdict};

    #[test]
    fn each_part_of_a_line() {
        let line = r#"{"kind":"column","index":0,"column":"g","state":"geometry","type":"wkb - -","type_from":"field","crs":null,"crs_from":"geo","edges":"spherical","edges_from":"element","epoch":2020.5,"orientation":"counterclockwise","geometry_types":["Point","Polygon Z"],"bbox":[1,2.5],"verdicts":{"crs":{"element":"not compared","field":"contradict"},"encoding":{"geo":"agree"}}}"#;
        let verdicts = vec![
            ("crs".to_owned(), Source::Element, Verdict::NotCompared),
            ("crs".to_owned(), Source::Field, Verdict::Contradict),
            ("encoding".to_owned(), Source::Geo, Verdict::Agree),
        ];
        let wanted = Facts {
            crs_from: Some(Source::Geo),
            is_crs_unknown: true,
            crs_type: None,
            edges: Some("spherical".to_owned()),
            edges_from: Some(Source::Element),
            type_from: Some(Source::Field),
            bbox: Some("[1,2.5]".to_owned()),
            epoch: Some("2020.5".to_owned()),
            geometry_types: vec!["Point".to_owned(), "Polygon Z".to_owned()],
            orientation: Some("counterclockwise".to_owned()),
            verdicts,
        };
        assert_eq!(column_facts(line).unwrap(), wanted);
    }

    #[test]
    fn a_column_of_no_geometries_and_a_line_of_none() {
        let plain = r#"{"kind":"column","index":0,"column":"id","state":"plain","type":"int64"}"#;
        assert_eq!(column_facts(plain).unwrap(), Facts::default());
        for line in [
            "",
            "{}",
            r#"{"column":"g","index":0,"state":"plain","type":"int64"}"#,
            r#"{"kind":"finding","column":"g"}"#,
            r#"{"kind":"column","column":"g","crs_from":"elements"}"#,
            r#"{"kind":"column","column":"g","edges":1}"#,
            r#"{"kind":"column","column":"g","bbox":1}"#,
            r#"{"kind":"column","column":"g","epoch":"2020"}"#,
            r#"{"kind":"column","column":"g","geometry_types":["Point",1]}"#,
            r#"{"kind":"column","column":"g","orientation":[]}"#,
            r#"{"kind":"column","column":"g","verdicts":{"crs":{"geo":"yes"}}}"#,
            r#"{"kind":"column","column":"g","verdicts":[]}"#,
        ] {
            assert!(column_facts(line).is_err(), "{line}");
        }
    }
}

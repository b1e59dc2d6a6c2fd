//! Columns of geometries that are made.
use crate::calls;
use crate::error::Error;
use crate::text;

/// An enum of words, as docs/FORMAT.md has them.
macro_rules! words {
    ($(#[$doc:meta])* $name:ident { $($variant:ident = $word:literal,)* }) => {
        $(#[$doc])*
        #[derive(Debug, Clone, Copy, PartialEq, Eq, Hash)]
        pub enum $name {
            $(#[doc = concat!("`", $word, "`.")] $variant,)*
        }

        impl $name {
            /// Returns its word.
            #[must_use]
            pub fn as_str(self) -> &'static str {
                match self {
                    $($name::$variant => $word,)*
                }
            }
        }
    };
}

words! { /// The type of all geometries of a column (docs/FORMAT.md, 1.4).
GeometryType {
    Point = "point", LineString = "linestring", Polygon = "polygon", MultiPoint = "multipoint",
    MultiLineString = "multilinestring", MultiPolygon = "multipolygon",
    GeometryCollection = "geometrycollection",
} }
words! { /// How coordinates are stored: as lists, or as structs (1.3).
CoordType { Interleaved = "interleaved", Separated = "separated", } }
words! { /// Which numbers a coordinate has (1.3).
Dimension { XY = "XY", XYZ = "XYZ", XYM = "XYM", XYZM = "XYZM", } }
words! { /// How well-known binary or text is stored: with offsets of 32 or 64 bits, or as views (1.4).
Serialized {
    Wkb = "wkb", LargeWkb = "large_wkb", WkbView = "wkb_view", Wkt = "wkt", LargeWkt = "large_wkt",
    WktView = "wkt_view",
} }
words! { /// How a CRS is written (1.6).
CrsType {
    Projjson = "projjson", Wkt2 = "wkt2:2019", AuthorityCode = "authority_code", Srid = "srid",
} }
words! { /// How edges run, where they are not planar (1.6).
Edges {
    Andoyer = "andoyer", Karney = "karney", Spherical = "spherical", Thomas = "thomas",
    Vincenty = "vincenty",
} }

/// The kind of a column (docs/FORMAT.md, 1.4).
#[derive(Debug, Clone, Copy, PartialEq, Eq, Hash)]
pub enum Kind {
    /// Geometries of one type.
    Native(GeometryType, CoordType, Dimension),
    /// Geometries of any type and dimension.
    Geometry(CoordType),
    /// Boxes.
    Box(Dimension),
    /// Well-known binary or text.
    Serialized(Serialized),
}

impl Kind {
    /// Returns its words, as a report has them at `type` (2.5).
    fn words(self) -> String {
        let (kind, coord_type, dimension) = match self {
            Kind::Native(kind, coord_type, dimension) => {
                (kind.as_str(), coord_type.as_str(), dimension.as_str())
            }
            Kind::Geometry(coord_type) => ("geometry", coord_type.as_str(), "-"),
            Kind::Box(dimension) => ("box", CoordType::Separated.as_str(), dimension.as_str()),
            Kind::Serialized(kind) => (kind.as_str(), "-", "-"),
        };
        format!("{kind} {coord_type} {dimension}")
    }
}

/// What a column of geometries is made of (docs/FORMAT.md, 2.11).
#[derive(Debug, Clone, Copy, PartialEq, Eq, Hash)]
pub struct NewField<'a> {
    /// The name.
    pub name: &'a str,
    /// The kind.
    pub kind: Kind,
    /// Whether values may be null.
    pub nullable: bool,
    /// The CRS: none of an empty text, the text of a PROJJSON, which begins with `{`, or another.
    pub crs: &'a str,
    /// How the CRS is written; without it, as its form tells, if it does.
    pub crs_type: Option<CrsType>,
    /// How edges run; without it they are planar.
    pub edges: Option<Edges>,
}

impl NewField<'_> {
    /// Returns a column of a kind that has neither a name nor a CRS, and whose values may be null.
    #[must_use]
    pub fn new(kind: Kind) -> Self {
        NewField {
            name: "",
            kind,
            nullable: true,
            crs: "",
            crs_type: None,
            edges: None,
        }
    }
}

/// Returns the line of a column of geometries as GeoArrow writes it (docs/FORMAT.md, 2.7 and 2.11),
/// without a line feed.
///
/// ```
/// use geoarrow_checked::{make_line, Kind, NewField, Serialized};
///
/// let new = NewField { name: "g", ..NewField::new(Kind::Serialized(Serialized::Wkb)) };
/// let line = r#"{"metadata":{"ARROW:extension:name":"geoarrow.wkb"},"name":"g","nullable":true,"type":"binary"}"#;
/// assert_eq!(make_line(&new)?, line);
/// # Ok::<(), geoarrow_checked::Error>(())
/// ```
///
/// # Errors
///
/// [`Error::Refused`] where a CRS begins with `{` and is no PROJJSON, and where there is a CRS type
/// without a CRS, with the code `BadSchema`; [`Error::OutOfMemory`].
pub fn make_line(new: &NewField<'_>) -> Result<String, Error> {
    let words = new.kind.words();
    let crs_type = new.crs_type.map_or("", CrsType::as_str);
    let edges = new.edges.map_or("", Edges::as_str);
    let mut line = text(calls::make(new, &words, crs_type, edges)?);
    if line.ends_with('\n') {
        line.pop();
    }
    Ok(line)
}

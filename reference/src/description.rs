//! What a description says once it keeps the table of elements: segments, groups and variables.
//! A plan's table is read into the same shape, without the details.

#[derive(Debug, Clone, Copy, PartialEq, Eq)]
pub enum Kind {
    Group,
    Int,
    String,
    Eventid,
    Float,
}

impl Kind {
    /// The first field of such a record.
    pub fn field(self) -> i64 {
        match self {
            Kind::Group => 2,
            Kind::Int => 3,
            Kind::String => 4,
            Kind::Eventid => 5,
            Kind::Float => 6,
        }
    }

    pub fn of_field(field: i64) -> Option<Kind> {
        [Kind::Group, Kind::Int, Kind::String, Kind::Eventid, Kind::Float]
            .into_iter()
            .find(|kind| kind.field() == field)
    }

    /// The element's name.
    pub fn name(self) -> &'static str {
        match self {
            Kind::Group => "group",
            Kind::Int => "int",
            Kind::String => "string",
            Kind::Eventid => "eventid",
            Kind::Float => "float",
        }
    }
}

#[derive(Debug, Clone, PartialEq, Eq)]
pub struct Segment {
    pub record: usize,
    pub place: usize,
    pub origin: i64,
    pub space: i64,
    pub members: Vec<Data>,
}

/// A group or a variable. A group's size is 0, a variable's replication is 1 and it has no members.
#[derive(Debug, Clone, PartialEq, Eq)]
pub struct Data {
    pub record: usize,
    pub place: usize,
    pub kind: Kind,
    pub offset: i64,
    pub size: i64,
    pub replication: i64,
    pub members: Vec<Data>,
    pub detail: Detail,
}

/// What writing and reading need beyond the table.
#[derive(Debug, Clone, PartialEq, Eq)]
pub enum Detail {
    None,
    Int(IntDetail),
    /// The decoded properties of a string's map, if it has a map.
    String {
        map: Option<Vec<Vec<u8>>>,
    },
    Eventid {
        map: bool,
    },
}

#[derive(Debug, Clone, PartialEq, Eq)]
pub struct IntDetail {
    pub signed: bool,
    pub min: i128,
    pub max: i128,
    /// The properties of the int's map as numbers, if it has a map.
    pub map: Option<Vec<i128>>,
}

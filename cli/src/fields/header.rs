//! The header's fields.
use super::{put, Field, Setter, Shown};
use crate::cell::Cell;
use crate::values;
use codeplug::Header;

pub static HEADER: &[Field<Header>] = &[
    Field {
        key: "author",
        option: "author",
        title: "author",
        shown: Shown::InTables,
        get: |h, _| Cell::Text(h.author.clone()),
        set: Setter::Text(|h, text| h.author = text.into()),
    },
    Field {
        key: "description",
        option: "description",
        title: "description",
        shown: Shown::InTables,
        get: |h, _| Cell::Text(h.description.clone()),
        set: Setter::Text(|h, text| h.description = text.into()),
    },
    Field {
        key: "timestamp",
        option: "timestamp",
        title: "timestamp",
        shown: Shown::InTables,
        get: |h, _| Cell::Number(h.timestamp),
        set: Setter::Value(|h, text, _| put(&mut h.timestamp, values::timestamp(text)?)),
    },
    Field {
        key: "contacts",
        option: "",
        title: "contacts",
        shown: Shown::InTables,
        get: |h, _| Cell::Number(h.counts.contacts.into()),
        set: Setter::Never,
    },
    Field {
        key: "channels",
        option: "",
        title: "channels",
        shown: Shown::InTables,
        get: |h, _| Cell::Number(h.counts.channels.into()),
        set: Setter::Never,
    },
    Field {
        key: "banks",
        option: "",
        title: "banks",
        shown: Shown::InTables,
        get: |h, _| Cell::Number(h.counts.banks.into()),
        set: Setter::Never,
    },
];

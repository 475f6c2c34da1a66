//! Records as rows of cells: a table for people, JSON and CSV for programs.
use crate::cell::{json_string, Cell};
use crate::fail::Done;
use crate::fields::{Context, Field, Shown, CHANNEL, CONTACT, HEADER};
use crate::out::{Out, Paint};
use crate::records::{Bank, Records};
use crate::values;

#[derive(Clone, Copy, PartialEq)]
pub enum Form {
    Table,
    Json,
    Csv,
}

/// A field of every row.
struct Column {
    /// In JSON and CSV; empty where it is for people alone.
    key: &'static str,
    title: &'static str,
    shown: Shown,
}

pub struct Rows {
    columns: Vec<Column>,
    cells: Vec<Vec<Cell>>,
    /// One record by itself, and no list of them.
    single: bool,
}

const PLACE: Column = Column { key: "place", title: "place", shown: Shown::InTables };

fn rows<R>(fields: &'static [Field<R>], records: &[R], context: Context) -> Rows {
    let row = |(n, record): (usize, &R)| {
        let cells = fields.iter().map(|field| (field.get)(record, context));
        std::iter::once(Cell::Number(n as u64)).chain(cells).collect()
    };
    let columns = fields.iter().map(|field| Column { key: field.key, title: field.title, shown: field.shown });
    let columns = std::iter::once(PLACE).chain(columns).collect();
    Rows { columns, cells: records.iter().enumerate().map(row).collect(), single: false }
}

/// The header, or all contacts, channels or banks.
pub fn rows_of(records: &Records, part: &str) -> Rows {
    match part {
        "header" => {
            let mut header = rows(HEADER, std::slice::from_ref(&records.header), records.context());
            // There is one, which has no place.
            header.columns.remove(0);
            header.cells[0].remove(0);
            header.only(0)
        }
        "contacts" => rows(CONTACT, &records.contacts, records.context()),
        "channels" => rows(CHANNEL, &records.channels, records.context()),
        _ => banks(records),
    }
}

fn banks(records: &Records) -> Rows {
    let row = |(n, bank): (usize, &Bank)| {
        let count = Cell::Number(bank.entries.len() as u64);
        let entries = Cell::Numbers(bank.entries.clone());
        vec![Cell::Number(n as u64), Cell::Text(bank.name.clone()), count, Cell::Text(first_channels(records, bank)), entries]
    };
    let columns = vec![
        PLACE,
        Column { key: "name", title: "name", shown: Shown::InTables },
        Column { key: "", title: "count", shown: Shown::InTables },
        Column { key: "", title: "channels", shown: Shown::InTables },
        Column { key: "entries", title: "", shown: Shown::Never },
    ];
    Rows { columns, cells: records.banks.iter().enumerate().map(row).collect(), single: false }
}

/// The first channels of a bank by name, and how many more there are.
fn first_channels(records: &Records, bank: &Bank) -> String {
    let mut shown: Vec<String> = bank.entries.iter().take(6).map(|entry| records.channel_name(*entry)).collect();
    if bank.entries.len() > 6 {
        shown.push(format!("and {} more", bank.entries.len() - 6));
    }
    shown.join(", ")
}

impl Rows {
    /// One of them by itself.
    pub fn only(mut self, n: usize) -> Rows {
        Rows { cells: vec![self.cells.swap_remove(n)], single: true, ..self }
    }

    pub fn print(&self, form: Form, out: &mut Out) -> Done {
        match form {
            Form::Csv => self.csv(out),
            Form::Json => out.line(&self.json("")),
            Form::Table if self.single => self.list(out),
            Form::Table => self.table(out),
        }
    }

    fn csv(&self, out: &mut Out) -> Done {
        let columns: Vec<usize> = (0..self.columns.len()).filter(|n| !self.columns[*n].key.is_empty()).collect();
        let line = |cell: &dyn Fn(usize) -> String| columns.iter().map(|n| cell(*n)).collect::<Vec<_>>().join(",");
        out.line(&line(&|n| self.columns[n].key.into()))?;
        self.cells.iter().try_for_each(|row| out.line(&line(&|n| row[n].csv())))
    }

    fn object(&self, row: &[Cell]) -> String {
        let keyed = self.columns.iter().zip(row).filter(|(column, _)| !column.key.is_empty());
        let value = |(column, cell): (&Column, &Cell)| cell.json().map(|value| format!("{}: {value}", json_string(column.key)));
        format!("{{{}}}", keyed.filter_map(value).collect::<Vec<_>>().join(", "))
    }

    /// A record to a line.
    pub fn json(&self, indent: &str) -> String {
        if self.single {
            return self.object(&self.cells[0]);
        }
        let objects: Vec<String> = self.cells.iter().map(|row| format!("{indent}  {}", self.object(row))).collect();
        if objects.is_empty() {
            return "[]".into();
        }
        format!("[\n{}\n{indent}]", objects.join(",\n"))
    }

    /// A table of the fields that some record has.
    fn table(&self, out: &mut Out) -> Done {
        let texts: Vec<Vec<String>> = self.cells.iter().map(|row| row.iter().map(Cell::text).collect()).collect();
        let used = |n: usize| texts.is_empty() || self.cells.iter().any(|row| !matches!(row[n], Cell::Absent));
        let shown = |n: &usize| self.columns[*n].shown == Shown::InTables && used(*n);
        let columns: Vec<usize> = (0..self.columns.len()).filter(shown).collect();
        let widest = |n: usize| texts.iter().map(|row| row[n].chars().count()).max().unwrap_or(0);
        let widths: Vec<usize> = columns.iter().map(|n| widest(*n).max(self.columns[*n].title.len())).collect();
        let line = |text: &dyn Fn(usize) -> String| {
            let cells = columns.iter().zip(&widths).map(|(n, width)| format!("{:width$}", text(*n)));
            cells.collect::<Vec<_>>().join("  ").trim_end().to_string()
        };
        out.painted(&line(&|n| self.columns[n].title.into()), Paint::Bold)?;
        texts.iter().try_for_each(|row| out.line(&line(&|n| row[n].clone())))
    }

    /// One record, a field to a line.
    fn list(&self, out: &mut Out) -> Done {
        let row = &self.cells[0];
        let shown = |n: &usize| self.columns[*n].shown != Shown::Never && !matches!(row[*n], Cell::Absent);
        let columns: Vec<usize> = (0..row.len()).filter(shown).collect();
        let width = columns.iter().map(|n| self.columns[*n].title.len()).max().unwrap_or(0);
        for n in columns {
            let title = self.columns[n].title;
            let text = match &row[n] {
                Cell::Number(seconds) if title == "timestamp" => dated(*seconds),
                cell => cell.whole_text(),
            };
            out.line(format!("{title:width$}  {text}").trim_end())?;
        }
        Ok(())
    }
}

fn dated(seconds: u64) -> String {
    values::date(seconds).map_or(seconds.to_string(), |date| format!("{seconds} ({date})"))
}

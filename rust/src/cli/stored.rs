//! Records in files: as they are, in column order, and back to a sheet.

use super::args::Args;
use super::sheet::Printer;
use super::walk::Run;
use super::{Refused, Trouble, files};
use lomqashe::{MOST_ROWS, Record, Refusal};
use std::fs::{self, File};
use std::io::{self, BufWriter, Write};
use std::path::Path;

/// Writes records one after the other while it can. Behind the first error it writes nothing, and keeps that error.
struct RecordFile<'p> {
    path: &'p Path,
    out: BufWriter<File>,
    written: io::Result<()>,
}

impl RecordFile<'_> {
    fn create(path: &Path) -> Result<RecordFile<'_>, Trouble> {
        let file = File::create(path).map_err(|why| Trouble::file(path, why))?;
        Ok(RecordFile {
            path,
            out: BufWriter::new(file),
            written: Ok(()),
        })
    }

    /// False where nothing can be written any more.
    fn put(&mut self, record: &Record) -> bool {
        if self.written.is_ok() {
            self.written = self.out.write_all(record.as_bytes());
        }
        self.written.is_ok()
    }

    fn finish(mut self) -> Result<(), Trouble> {
        self.written
            .and_then(|()| self.out.flush())
            .map_err(|why| Trouble::file(self.path, why))
    }
}

fn refused(refusal: Refusal) -> Trouble {
    Trouble::Refused(Refused::from(refusal))
}

/// Walks the rows that were printed once more, so that none but a section's are held.
pub fn write_records(run: &Run, args: &Args) -> Result<(), Trouble> {
    let Some(path) = &args.records else { return Ok(()) };
    let mut file = RecordFile::create(path)?;
    run.walk(|row| file.put(&row.record)).map_err(refused)?;
    file.finish()
}

/// Stores the rows that were printed. Of too many no more are collected than make the library refuse them, and nothing is
/// written.
pub fn write_columns(run: &Run, args: &Args) -> Result<(), Trouble> {
    let Some(path) = &args.columns else { return Ok(()) };
    let mut records = Vec::new();
    run.walk(|row| {
        records.push(row.record.clone());
        records.len() <= MOST_ROWS as usize
    })
    .map_err(refused)?;
    let columns = lomqashe::store(&records).map_err(refused)?;
    fs::write(path, columns).map_err(|why| Trouble::file(path, why))
}

/// Prints the sheet of a stored file, and writes its records where they are asked for.
pub fn print_restored(stored: &Path, args: &Args, out: &mut impl Write) -> Result<(), Trouble> {
    files::keep_apart(args)?;
    let columns = files::read_columns(stored)?;
    let mut printer = Printer::new(out, args.form);
    let restored = lomqashe::restore(&columns);
    match &restored {
        Ok(records) => {
            records.iter().for_each(|record| printer.row(record));
            printer.last("restored", records.len() as u64, card_length(records));
        }
        Err(refusal) => printer.refused(*refusal),
    }
    let sheet = printer.finish().map_err(Trouble::Output);
    let records = restored.map_err(refused)?;
    write_restored(&records, args).and(sheet)
}

/// Where the last row ends. A stored file may have any bytes: beyond the largest number it is that number.
fn card_length(records: &[Record]) -> u64 {
    let last = records.last();
    last.map_or(0, |record| record.start().saturating_add(record.length().into()))
}

fn write_restored(records: &[Record], args: &Args) -> Result<(), Trouble> {
    let Some(path) = &args.records else { return Ok(()) };
    let mut file = RecordFile::create(path)?;
    for record in records {
        file.put(record);
    }
    file.finish()
}

//! The command line.

mod args;
mod drawing;
mod files;
mod sheet;
mod stored;
mod walk;

use args::{Args, Wish};
use drawing::{Drawing, Plan};
use files::Saved;
use lomqashe::{MOST_ROWS, Refusal, Repeat, State, Tune};
use sheet::Printer;
use std::ffi::OsString;
use std::fs::File;
use std::io::{self, BufWriter, Write};
use std::path::{Path, PathBuf};
use std::process::ExitCode;
use walk::{End, Run};

const HELP: &str = "\
Prints the row sheet of a Scream Tracker 3 tune: each row with its start on the card in micrometres.

usage: lomqashe [OPTIONS] [FILE]

Reads standard input where no file is named, or where it is -.

  --rate N        the card's micrometres a second, 1 to 100000 (60000)
  --transpose N   move the notes of all channels by N semitones, -24 to 24 (0), or of channel K, 0 to 31, with K:N; where
                  several say it of a channel the last counts
  --rows N        stop behind so many rows, and say `more` (10000)
  --once          stop before the rows of an endless tune come again, and say `repeats`
  --closed        take only a closed tune, which is sure to end; another is refused, and what breaks it is named
  --sections N    cut the book in sections of N rows, 1 to 65535 (50); the sheet is the same
  --strikes       print the struck channels of each row, from the lowest frequency up
  --channels      print what the 32 channels do, a line for each row and channel; not with --strikes
  --svg FILE      draw the book: the card along, 32 channels across, a slot for each strike
  --save FILE     write the state behind the last row to a file
  --from FILE     go on from a state that --save wrote, with the same tune
  --records FILE  write the records of the rows as they are, 536 bytes each
  --columns FILE  write them in column order for an archive, as lomqashe_store does; 1 to 65535 rows
  --restore FILE  print the sheet of a file that --columns wrote, and say `restored`; no tune is read, and of the others
                  only --strikes, --channels and --records go with it
  --help, --version

The last line of a sheet has the rows and the card's length so far behind `end`, `more`, `repeats` or `restored`, or a
rule's number behind `refused`. With --from both count from the tune's opening, so that the first sheet without its last
line and the next without its title are the sheet of both: head -n -1 FIRST; tail -n +2 NEXT.

Files are written whatever becomes of standard output, never two into one, and never over one that is read; but a state may
be saved over the one that was gone on from.

Exit status: 0, also where the reader of standard output has gone; 1 where the tune, the state, the rows for --columns or
the file of --restore are refused, the rule told on standard error; 2 where the command line is wrong, or a file cannot be
read or written.
";

/// 60 mm of card a second.
const RATE: u32 = 60_000;
/// The rule by which a tune is refused that is not closed, and that by which a state is whose levels cannot be real.
const NOT_CLOSED: u8 = 14;
const LEVELS: u8 = 17;

/// What went wrong, and the exit status that says so.
enum Trouble {
    Refused(Refused),
    Usage(String),
    File(PathBuf, io::Error),
    Drawing(String),
    Output(io::Error),
}

/// A refusal, and what breaks the rule where that can be named: a cell, or a channel's level.
struct Refused {
    refusal: Refusal,
    breach: Option<String>,
}

impl From<Refusal> for Refused {
    fn from(refusal: Refusal) -> Refused {
        Refused { refusal, breach: None }
    }
}

impl Refused {
    fn told(&self) -> String {
        let breach = self
            .breach
            .as_ref()
            .map_or(String::new(), |breach| format!(": {breach}"));
        format!("refused: {}{breach}", self.refusal)
    }
}

impl Trouble {
    fn file(path: impl AsRef<Path>, why: io::Error) -> Trouble {
        Trouble::File(path.as_ref().to_path_buf(), why)
    }

    fn told(&self) -> String {
        match self {
            Trouble::Refused(refused) => refused.told(),
            Trouble::Usage(why) => format!("{why}; see lomqashe --help"),
            Trouble::File(file, why) => format!("{}: {why}", file.display()),
            Trouble::Drawing(why) => why.clone(),
            Trouble::Output(why) => format!("standard output: {why}"),
        }
    }
}

pub fn run(words: impl Iterator<Item = OsString>) -> ExitCode {
    match answer(words) {
        Ok(()) => ExitCode::SUCCESS,
        // The reader has gone: there is nobody to tell.
        Err(Trouble::Output(why)) if why.kind() == io::ErrorKind::BrokenPipe => ExitCode::SUCCESS,
        Err(trouble) => {
            tell(&trouble.told());
            ExitCode::from(if matches!(trouble, Trouble::Refused(_)) { 1 } else { 2 })
        }
    }
}

/// A line on standard error, if anybody listens there.
fn tell(words: &str) {
    let _ = writeln!(io::stderr(), "lomqashe: {words}");
}

fn answer(words: impl Iterator<Item = OsString>) -> Result<(), Trouble> {
    let mut out = BufWriter::new(io::stdout().lock());
    match args::parse(words).map_err(Trouble::Usage)? {
        Wish::Help => out.write_all(HELP.as_bytes()).map_err(Trouble::Output)?,
        Wish::Version => writeln!(out, "lomqashe {}", env!("CARGO_PKG_VERSION")).map_err(Trouble::Output)?,
        Wish::Sheet(args) => match &args.restore {
            Some(stored) => stored::print_restored(stored, &args, &mut out)?,
            None => print(&args, &mut out)?,
        },
    }
    out.flush().map_err(Trouble::Output)
}

/// Prints the sheet, then writes the files that were asked for. Trouble with the sheet comes last: a closed pipe keeps no
/// file from being written.
fn print(args: &Args, out: &mut impl Write) -> Result<(), Trouble> {
    files::keep_apart(args)?;
    let file = files::read_tune(args.file.as_deref())?;
    let saved = args.from.as_deref().map(Saved::read).transpose()?;
    let mut printer = Printer::new(out, args.form);
    let mut plan = Plan::default();
    let printed = print_rows(&file, saved, args, &mut printer, &mut plan);
    if let Err(refused) = &printed {
        printer.refused(refused.refusal);
    }
    let sheet = printer.finish().map_err(Trouble::Output);
    let Printed { run, end, repeat } = printed.map_err(Trouble::Refused)?;
    if let Some(repeat) = repeat {
        tell_repeat(&repeat, &run);
    }
    let saved = save(&run, &end, args);
    let drawn = draw(&run, &plan, end.ended, args);
    let recorded = stored::write_records(&run, args);
    let stored = stored::write_columns(&run, args);
    saved.and(drawn).and(recorded).and(stored).and(sheet)
}

/// The rows that were printed, and where they stopped.
struct Printed {
    run: Run,
    end: End,
    repeat: Option<Repeat>,
}

/// Prints the rows as they come, and lays the drawing out. Where the sheet's reader has gone it goes on only for a file.
fn print_rows(
    file: &[u8],
    saved: Option<Saved>,
    args: &Args,
    printer: &mut Printer<impl Write>,
    plan: &mut Plan,
) -> Result<Printed, Refused> {
    let mut run = run_asked_for(file, saved, args)?;
    let repeat = match args.once {
        true => run
            .tune
            .first_repeat_from(&run.state, run.most)
            .map_err(|refusal| of_state(refusal, &run.state))?,
        false => None,
    };
    run.most = repeat.map_or(run.most, |repeat| repeat.rows);
    let walked = run.walk(|row| {
        printer.row(&row.record);
        plan.see(row);
        printer.is_open() || is_wanted(args, plan)
    });
    let end = walked.map_err(|refusal| of_state(refusal, &run.state))?;
    let word = match (end.ended, repeat) {
        (true, _) => "end",
        (false, Some(_)) => "repeats",
        (false, None) => "more",
    };
    printer.last(word, run.counted(end.rows), end.state.start());
    run.most = end.rows;
    Ok(Printed { run, end, repeat })
}

/// Whether a file needs the rows behind those that were seen.
fn is_wanted(args: &Args, seen: &Plan) -> bool {
    args.save.is_some()
        || args.records.is_some()
        || args.columns.is_some() && seen.rows <= MOST_ROWS.into()
        || args.svg.is_some() && seen.layout().is_ok()
}

/// A tune that goes on from a saved state is asked to be closed too.
fn run_asked_for(file: &[u8], saved: Option<Saved>, args: &Args) -> Result<Run, Refused> {
    let mut tune = Tune::read(file, args.rate.unwrap_or(RATE))?;
    for (channel, by) in tune
        .opening
        .channels
        .iter_mut()
        .zip(args.transpositions.unwrap_or_default())
    {
        channel.transposition = by;
    }
    let opened = if args.closed { open_closed(&tune)? } else { tune.open()? };
    let (state, before) = match saved {
        Some(Saved { rows, state }) => (state, rows),
        None => (opened, 0),
    };
    Ok(Run {
        tune,
        state,
        before,
        section: args.sections,
        most: args.rows,
    })
}

fn open_closed(tune: &Tune) -> Result<State, Refused> {
    tune.open_closed().map_err(|refusal| Refused {
        refusal,
        breach: (refusal.number() == NOT_CLOSED)
            .then(|| tune.first_breach())
            .flatten()
            .map(|breach| breach.to_string()),
    })
}

/// The refusal of a state to go on from.
fn of_state(refusal: Refusal, state: &State) -> Refused {
    let above = (refusal.number() == LEVELS)
        .then(|| state.first_level_above())
        .flatten();
    Refused {
        refusal,
        breach: above.map(|above| above.to_string()),
    }
}

fn tell_repeat(repeat: &Repeat, run: &Run) {
    tell(&format!(
        "repeats: row {} is row {} again (order {}, pattern {}, row {}, start {}); rows are counted from 0",
        run.counted(repeat.rows),
        run.counted(repeat.back_to),
        repeat.order,
        repeat.pattern,
        repeat.row,
        repeat.start
    ));
}

fn save(run: &Run, end: &End, args: &Args) -> Result<(), Trouble> {
    let Some(path) = &args.save else { return Ok(()) };
    let saved = Saved {
        rows: run.counted(end.rows),
        state: end.state.clone(),
    };
    saved.write(path)
}

/// Walks the rows that were printed once more, since the drawing's head says what is in them all.
fn draw(run: &Run, plan: &Plan, ended: bool, args: &Args) -> Result<(), Trouble> {
    let Some(path) = &args.svg else { return Ok(()) };
    let layout = plan.layout().map_err(Trouble::Drawing)?;
    let trouble = |why| Trouble::file(path, why);
    let out = BufWriter::new(File::create(path).map_err(trouble)?);
    let mut drawing = Drawing::new(out, layout);
    drawing.head(plan, &title(args), ended);
    run.walk(|row| drawing.row(row))
        .map_err(|refusal| Trouble::Refused(refusal.into()))?;
    drawing.finish().map_err(trouble)
}

/// What the drawing is headed with: the file's own name.
fn title(args: &Args) -> String {
    let name = args.file.as_deref().and_then(Path::file_name);
    name.map_or("standard input".into(), |name| name.to_string_lossy().into_owned())
}

// The counting desk in plain Rust, written from docs/RULES.md: a second opinion on what is printed, and a measure of speed.
use std::env;
use std::fmt;
use std::fs;
use std::io::{self, BufWriter, Write};
use std::process::ExitCode;

const USAGE: &str = "usage: fintsaro [--places N] [--errors] [--audit] RUN TAPE
RUN has the opening of a desk and its lines, TAPE its words of chance.
--places N  serve up to N places, 1 to 32768; without it 2048
--errors    say under each answer how far off its numbers may be
--audit     after the run, work out the budgets from public things alone
";

const MOST_PLACES: usize = 32_768;
const USUAL_PLACES: usize = 2_048;
const MOST_ANALYSTS: usize = 32;
const MOST_UNITS: u32 = 20;
const MOST_CUTS: u8 = 63;
const MOST_TOKENS: usize = 64;
const FIELDS: u8 = 16;
const PAGE_BYTES: usize = 2_048;
const CELL_BYTES: usize = 32;

type Row = [u8; FIELDS as usize];

// A refusal: its number in the list, and its place.
struct Refusal {
    number: u8,
    place: usize,
}

fn refuse<T>(number: u8, place: usize) -> Result<T, Refusal> {
    Err(Refusal { number, place })
}

impl fmt::Display for Refusal {
    fn fmt(&self, f: &mut fmt::Formatter) -> fmt::Result {
        write!(f, "refused {} at {}", self.number, self.place)
    }
}

// The bytes of a query's line, read from the first on.
struct Reader<'a> {
    bytes: &'a [u8],
    at: usize,
}

impl Reader<'_> {
    fn next(&mut self) -> Result<u8, Refusal> {
        let Some(&byte) = self.bytes.get(self.at) else {
            return refuse(9, self.bytes.len());
        };
        self.at += 1;
        Ok(byte)
    }

    // The next byte, where it fits; else the refusal of this number at that byte.
    fn next_if(&mut self, number: u8, fits: impl Fn(u8) -> bool) -> Result<u8, Refusal> {
        let place = self.at;
        let byte = self.next()?;
        if fits(byte) { Ok(byte) } else { refuse(number, place) }
    }
}

enum Predicate {
    Below(u8, u8),
    Both(Box<Predicate>, Box<Predicate>),
    Not(Box<Predicate>),
}

impl Predicate {
    // Reads a predicate; `tokens` counts those read so far.
    fn read(reader: &mut Reader, tokens: &mut usize) -> Result<Predicate, Refusal> {
        let place = reader.at;
        let byte = reader.next()?;
        *tokens += 1;
        if *tokens > MOST_TOKENS {
            return refuse(14, place);
        }
        match byte {
            1 => {
                let field = reader.next_if(16, |field| field < FIELDS)?;
                Ok(Predicate::Below(field, reader.next()?))
            }
            2 => {
                let first = Predicate::read(reader, tokens)?;
                let second = Predicate::read(reader, tokens)?;
                Ok(Predicate::Both(Box::new(first), Box::new(second)))
            }
            3 => Ok(Predicate::Not(Box::new(Predicate::read(reader, tokens)?))),
            _ => refuse(15, place),
        }
    }

    fn holds(&self, row: &Row) -> bool {
        match self {
            Predicate::Below(field, bound) => row[*field as usize] < *bound,
            Predicate::Both(first, second) => first.holds(row) && second.holds(row),
            Predicate::Not(inner) => !inner.holds(row),
        }
    }
}

enum Kind {
    Count,
    Table { field: u8, cuts: Vec<u8> },
}

struct Query {
    analyst: u8,
    kind: Kind,
    predicate: Predicate,
}

impl Query {
    // Reads the bytes of a line after its kind.
    fn read(line: &[u8]) -> Result<Query, Refusal> {
        let mut reader = Reader { bytes: line, at: 1 };
        let analyst = reader.next()?;
        let kind = match reader.next_if(10, |byte| byte == 1 || byte == 2)? {
            1 => Kind::Count,
            _ => Query::read_table(&mut reader)?,
        };
        let predicate = Predicate::read(&mut reader, &mut 0)?;
        if reader.at < line.len() {
            return refuse(17, reader.at);
        }
        Ok(Query { analyst, kind, predicate })
    }

    fn read_table(reader: &mut Reader) -> Result<Kind, Refusal> {
        let field = reader.next_if(11, |field| field < FIELDS)?;
        let number = reader.next_if(12, |n| (1..=MOST_CUTS).contains(&n))?;
        let mut cuts: Vec<u8> = Vec::new();
        for _ in 0..number {
            let last = cuts.last().copied();
            cuts.push(reader.next_if(13, |cut| last.is_none_or(|last| cut > last))?);
        }
        Ok(Kind::Table { field, cuts })
    }

    fn cost(&self) -> u8 {
        match self.kind {
            Kind::Count => 1,
            Kind::Table { .. } => 2,
        }
    }

    // The true counts of the cells, in one pass over the rows.
    fn true_counts(&self, rows: &[Row]) -> Vec<usize> {
        let counted = rows.iter().filter(|row| row[0] == 1 && self.predicate.holds(row));
        match &self.kind {
            Kind::Count => vec![counted.count()],
            Kind::Table { field, cuts } => {
                let mut counts = vec![0; cuts.len() + 1];
                for row in counted {
                    let value = row[*field as usize];
                    counts[cuts.partition_point(|&cut| cut <= value)] += 1;
                }
                counts
            }
        }
    }
}

// The ring of weights by running sums: `sums[d]` is the sum of the weights of the distances below d, up to where the weights rest.
struct Ring {
    sums: Vec<u64>,
    total: u64,
}

impl Ring {
    const PLACES: u64 = 65_536;
    const REST: u64 = 4;

    fn new() -> Ring {
        let mut ring = Ring { sums: vec![0], total: 0 };
        let mut weight = 1u64 << 40;
        let mut sum = 0;
        while weight > Ring::REST {
            sum += weight;
            ring.sums.push(sum);
            weight = (4 * weight).div_ceil(5);
        }
        // Each distance but 0 and the farthest has two places.
        let half = Ring::PLACES / 2;
        ring.total = ring.within(half + 1) + ring.within(half) - ring.within(1);
        ring
    }

    // The sum of the weights of the distances below d, one place for each.
    fn within(&self, d: u64) -> u64 {
        let rest = self.sums.len() as u64 - 1;
        self.sums[d.min(rest) as usize] + Ring::REST * d.saturating_sub(rest)
    }

    // The sum of the weights of the places below j.
    fn before(&self, j: u64) -> u64 {
        if j <= Ring::PLACES / 2 {
            self.within(j)
        } else {
            self.total + self.within(1) - self.within(Ring::PLACES + 1 - j)
        }
    }

    // The place that a draw falls into: the last one whose weights before it are not above the draw.
    fn offset(&self, draw: u64) -> u64 {
        let (mut low, mut high) = (0, Ring::PLACES);
        while high - low > 1 {
            let middle = (low + high) / 2;
            if self.before(middle) <= draw {
                low = middle;
            } else {
                high = middle;
            }
        }
        low
    }

    // The number released for a true count from a cell's four words; none where all are rejected.
    fn release(&self, count: usize, words: &[u8]) -> Option<u64> {
        let bound = 1_864_135 * self.total;
        let (words, _) = words.as_chunks::<8>();
        let word = words.iter().map(|word| u64::from_le_bytes(*word)).find(|word| *word < bound)?;
        Some((count as u64 + self.offset(word % self.total)) % Ring::PLACES)
    }

    // How many draws move a number by more than so many places.
    fn draws_beyond(&self, places: u64) -> u64 {
        self.before(Ring::PLACES - places) - self.before(places + 1)
    }
}

// What is printed for a number released from a roll of so many places.
fn printed(released: Option<u64>, places: usize) -> String {
    match released {
        None => "none".to_string(),
        Some(number) if number >= 49_152 => "0".to_string(),
        Some(number) => number.min(places as u64).to_string(),
    }
}

// An edit or a query, as a line asks for it.
enum Line<'a> {
    Edit { place: usize, row: &'a Row },
    Ask(Query),
}

impl Line<'_> {
    fn read(bytes: &[u8], places: usize) -> Result<Line<'_>, Refusal> {
        match bytes {
            [1, low, high, row @ ..] => {
                let Ok(row) = <&Row>::try_from(row) else {
                    return refuse(6, bytes.len());
                };
                let place = u16::from_le_bytes([*low, *high]) as usize;
                if place >= places {
                    return refuse(7, 1);
                }
                if row[0] > 1 {
                    return refuse(8, 3);
                }
                Ok(Line::Edit { place, row })
            }
            [1, ..] => refuse(6, bytes.len()),
            [2, ..] => Query::read(bytes).map(Line::Ask),
            _ => refuse(5, 0),
        }
    }
}

// An answer: who asked, the numbers released, and what the budget then holds.
struct Answer {
    analyst: u8,
    released: Vec<Option<u64>>,
    left: u8,
}

struct Desk<'a> {
    rows: &'a mut [Row],
    budgets: Vec<u8>,
    tape: &'a [u8],
    ring: Ring,
}

impl<'a> Desk<'a> {
    // Opens the desk of a run file; gives the lines after the opening, too.
    fn open(file: &'a mut [u8], most_places: usize, tape: &'a [u8]) -> Result<(Desk<'a>, &'a [u8]), Refusal> {
        let Some((places, roll, budgets, lines)) = split(file) else {
            return refuse(1, 0);
        };
        if places == 0 || places > MOST_PLACES || places > most_places {
            return refuse(1, 0);
        }
        let (rows, _) = roll.as_chunks_mut();
        if let Some(place) = rows.iter().position(|row: &Row| row[0] > 1) {
            return refuse(2, place);
        }
        if budgets.is_empty() || budgets.len() > MOST_ANALYSTS {
            return refuse(3, 0);
        }
        let mut held = 0;
        for (analyst, units) in budgets.iter().enumerate() {
            held += u32::from(*units);
            if held > MOST_UNITS {
                return refuse(4, analyst);
            }
        }
        let desk = Desk { rows, budgets: budgets.to_vec(), tape, ring: Ring::new() };
        Ok((desk, lines))
    }

    // Takes a line: an answer, nothing for an edit, or a refusal.
    fn take(&mut self, bytes: &[u8]) -> Result<Option<Answer>, Refusal> {
        match Line::read(bytes, self.rows.len())? {
            Line::Edit { place, row } => {
                self.rows[place] = *row;
                Ok(None)
            }
            Line::Ask(query) => self.answer(&query).map(Some),
        }
    }

    fn answer(&mut self, query: &Query) -> Result<Answer, Refusal> {
        let Some((page, rest)) = self.tape.split_at_checked(PAGE_BYTES) else {
            return refuse(20, 0);
        };
        self.tape = rest;
        let Some(budget) = self.budgets.get_mut(query.analyst as usize) else {
            return refuse(18, 1);
        };
        let Some(left) = budget.checked_sub(query.cost()) else {
            return refuse(19, 1);
        };
        *budget = left;
        let counts = query.true_counts(self.rows);
        let words = page.chunks(CELL_BYTES);
        let released = counts.iter().zip(words).map(|(count, words)| self.ring.release(*count, words)).collect();
        Ok(Answer { analyst: query.analyst, released, left })
    }

    fn print(&self, out: &mut impl Write, answer: &Answer, errors: bool) -> io::Result<()> {
        write!(out, "{} says", answer.analyst)?;
        for released in &answer.released {
            write!(out, " {}", printed(*released, self.rows.len()))?;
        }
        writeln!(out, " left {}", answer.left)?;
        if errors {
            writeln!(out, "each number may be off, whatever the true count:")?;
            for places in [5, 10, 20, 40] {
                let (draws, all) = (self.ring.draws_beyond(places), self.ring.total);
                // The share in hundredths of a per cent, to the nearest.
                let share = (10_000 * draws + all / 2) / all;
                let (whole, part) = (share / 100, share % 100);
                writeln!(out, "more than {places} off: {whole}.{part:02} % of the draws ({draws} of {all})")?;
            }
        }
        Ok(())
    }
}

// The places, the bytes of the roll, the budgets and the lines of a run file; none where it ends inside the opening.
fn split(file: &mut [u8]) -> Option<(usize, &mut [u8], &[u8], &[u8])> {
    let (size, rest) = file.split_first_chunk_mut::<2>()?;
    let places = u16::from_le_bytes(*size) as usize;
    let (roll, rest) = rest.split_at_mut_checked(places * FIELDS as usize)?;
    let (analysts, rest) = rest.split_first()?;
    let (budgets, lines) = rest.split_at_checked(*analysts as usize)?;
    Some((places, roll, budgets, lines))
}

// The lines of a run file. One that the file ends in has the bytes that are there.
fn lines(mut bytes: &[u8]) -> impl Iterator<Item = &[u8]> {
    std::iter::from_fn(move || {
        let line;
        (line, bytes) = match bytes {
            [] => return None,
            [_] => (&[][..], &[][..]),
            [low, high, rest @ ..] => {
                let length = u16::from_le_bytes([*low, *high]) as usize;
                rest.split_at(length.min(rest.len()))
            }
        };
        Some(line)
    })
}

struct Options {
    places: usize,
    errors: bool,
    audit: bool,
    run: String,
    tape: String,
}

// What the words of the command line ask for, if they ask for a run.
fn options(words: &[String]) -> Option<Options> {
    let mut words = words.iter().peekable();
    let (mut places, mut errors, mut audit) = (USUAL_PLACES, false, false);
    while let Some(option) = words.next_if(|word| ["--places", "--errors", "--audit"].contains(&word.as_str())) {
        match option.as_str() {
            "--places" => places = words.next()?.parse().ok().filter(|n| (1..=MOST_PLACES).contains(n))?,
            "--errors" => errors = true,
            _ => audit = true,
        }
    }
    let (run, tape) = (words.next()?.clone(), words.next()?.clone());
    if words.next().is_some() {
        return None;
    }
    Some(Options { places, errors, audit, run, tape })
}

fn serve(options: &Options) -> io::Result<()> {
    let mut file = fs::read(&options.run)?;
    let tape = fs::read(&options.tape)?;
    let mut out = BufWriter::new(io::stdout().lock());
    let (mut desk, bytes) = match Desk::open(&mut file, options.places, &tape) {
        Ok(opened) => opened,
        Err(refusal) => {
            writeln!(out, "desk {refusal}")?;
            return out.flush();
        }
    };
    let held: u8 = desk.budgets.iter().sum();
    for line in lines(bytes) {
        match desk.take(line) {
            Ok(Some(answer)) => desk.print(&mut out, &answer, options.errors)?,
            Ok(None) => {}
            Err(refusal) => writeln!(out, "{refusal}")?,
        }
    }
    if options.audit {
        let spent = held - desk.budgets.iter().sum::<u8>();
        write!(out, "accounts: spent {spent} of {held}, left")?;
        for units in &desk.budgets {
            write!(out, " {units}")?;
        }
        writeln!(out)?;
    }
    out.flush()
}

fn main() -> ExitCode {
    let words: Option<Vec<String>> = env::args_os().skip(1).map(|word| word.into_string().ok()).collect();
    let Some(words) = words else {
        return ExitCode::FAILURE;
    };
    if words.is_empty() || words == ["--help"] {
        print!("{USAGE}");
        return ExitCode::SUCCESS;
    }
    let Some(options) = options(&words) else {
        eprint!("{USAGE}");
        return ExitCode::FAILURE;
    };
    match serve(&options) {
        Ok(()) => ExitCode::SUCCESS,
        Err(error) => {
            eprintln!("desk: {error}");
            ExitCode::FAILURE
        }
    }
}

//! Runs cases through the crate, as bindings/c/test/test.c does through the library for C: tools/check_bindings reads what it prints.
//!
//!     cases cases < LINES
//!
//! A line is CALL CEILING STRICT ENTRIES HEX, and what comes of it a line of the status, the length, the place, the size, the space, the
//! index, the module, the count, the stated number, the rows, the id, and the output, as the head of test.c says.
use hyssopplinth::{
    answer_within, calls, merge_within, plain_within, prune_within, reencode_within, rename_within, renumber_within, visits, By, Error,
    Place, Reencode, Renaming, Space, Visit, Visits,
};
use std::collections::HashMap;
use std::convert::Infallible;
use std::fmt::Write as _;
use std::io::{self, BufRead, Write as _};

/// What came of a line: the length, the count, and the output; or an error.
type Came = Result<(usize, usize, String), Error>;

/// A reencoder by a table, of each space.
struct Table(HashMap<(Space, u32), u32>);

impl Reencode for Table {
    type Error = Infallible;

    fn any_index(&mut self, space: Space, index: u32) -> Result<u32, Error> {
        Ok(*self.0.get(&(space, index)).unwrap_or(&index))
    }
}

fn hex(bytes: &[u8]) -> String {
    bytes.iter().fold(String::new(), |mut text, byte| {
        let _ = write!(text, "{byte:02x}");
        text
    })
}

fn bytes_of(word: &str) -> Vec<u8> {
    if let Some(path) = word.strip_prefix('@') {
        return std::fs::read(path).expect("a file");
    }
    let digits = if word == "-" { "" } else { word };
    (0..digits.len() / 2).map(|at| u8::from_str_radix(&digits[2 * at..2 * at + 2], 16).expect("a digit")).collect()
}

fn numbers(text: &str, mark: char) -> Vec<u32> {
    if text == "-" {
        return Vec::new();
    }
    text.split(mark).map(|word| word.parse().expect("a number")).collect()
}

fn listed(numbers: &[u32]) -> String {
    numbers.iter().map(u32::to_string).collect::<Vec<_>>().join(",")
}

fn shown((place, visit): (Place, Visit)) -> String {
    let asked = match visit {
        Visit::Index { space, index } => format!("0:{}:0:{index}", space.number()),
        Visit::Outer { space, count, index } => format!("1:{}:{count}:{index}", space.number()),
        Visit::Push => "2:0:0:0".to_string(),
        Visit::Pop => "3:0:0:0".to_string(),
    };
    format!("{asked}:{}:{}", place.section, place.row.unwrap_or(u32::MAX))
}

fn made(bytes: Vec<u8>) -> (usize, usize, String) {
    (bytes.len(), 0, hex(&bytes))
}

/// The answers of a table, made of the visits.
fn answers(visits: &Visits, table: &mut Table) -> Vec<u32> {
    visits
        .iter()
        .map(|visit| match visit {
            Visit::Index { space, index } | Visit::Outer { space, index, .. } => table.any_index(space, index).expect("an answer"),
            Visit::Push | Visit::Pop => 0,
        })
        .collect()
}

/// By the table, at each visit: by a reencoder, and by answers to the visits that are listed, of which one more and one fewer is refused.
fn by_table(bytes: &[u8], entries: &[(Space, u32, u32)], ceiling: u32) -> Came {
    let mut table = Table(entries.iter().map(|&(space, from, to)| ((space, from), to)).collect());
    let came = reencode_within(bytes, &mut table, ceiling);
    match visits(bytes) {
        Ok(visits) => {
            let mut given = answers(&visits, &mut table);
            assert_eq!(answer_within(bytes, &given, ceiling), came);
            given.push(0);
            if came.is_ok() {
                assert_eq!(answer_within(bytes, &given, ceiling), Err(Error::Miscounted { wanted: visits.len() }));
            }
        }
        Err(error) => assert_eq!(came, Err(error)),
    }
    came.map(made)
}

fn run(call: &str, ceiling: u32, strict: bool, entries: &str, data: &str) -> Came {
    let (first, second) = data.split_once('+').unwrap_or((data, "-"));
    let bytes = bytes_of(first);
    let table = || -> Vec<(Space, u32, u32)> {
        let rows = if entries == "-" { "" } else { entries };
        rows.split(',')
            .filter(|row| !row.is_empty())
            .map(|row| {
                let row = numbers(row, ':');
                (Space::from_number(row[0]).expect("a space"), row[1], row[2])
            })
            .collect()
    };
    match call {
        "plain" => plain_within(&bytes, ceiling).map(made),
        "rename" => {
            let mut renaming: Renaming = table().into_iter().collect();
            renaming.set_strict(strict);
            rename_within(&bytes, &renaming, ceiling).map(made)
        }
        "answer" => by_table(&bytes, &table(), ceiling),
        "visits" => visits(&bytes).map(|rows| (rows.len(), 0, rows.placed().map(shown).collect::<Vec<_>>().join(","))),
        "renumber" => renumber_within(&bytes, &numbers(entries, ','), ceiling).map(made),
        "prune" => {
            prune_within(&bytes, ceiling).map(|it| (it.bytes.len(), it.kept.len(), format!("{}:{}", hex(&it.bytes), listed(&it.kept))))
        }
        "merge" => merge_within(&bytes, &bytes_of(second), ceiling).map(made),
        "calls" => calls(&bytes).map(|it| {
            // the parts are those that the offsets in front of the list say
            let list = it.as_list();
            let parts: Vec<u32> = it.roots().iter().chain(it.bodies().flatten()).copied().collect();
            assert_eq!(list[list.len() - parts.len()..], parts[..]);
            assert_eq!((list[0], it.of(it.defined())), (it.imported(), None));
            (list.len(), 0, listed(list))
        }),
        _ => panic!("no call: {call}"),
    }
}

/// The numbers of an error: the length, the place, the size, the space, the index, the module, the count, the stated number, the rows, the
/// id; and the name that clashes.
fn told(error: &Error) -> ([u64; 10], String) {
    let module = |by: &Option<By>| by.map_or(0, |by| by as u64);
    let mut numbers = [0; 10];
    let mut name = "-".to_string();
    match error {
        Error::ParseError { place, by } => (numbers[1], numbers[5]) = (*place, module(by)),
        Error::Refused { space, index } => (numbers[3], numbers[4]) = (space.number().into(), (*index).into()),
        Error::InvalidCodeSectionSize { by } | Error::UnexpectedNonCoreModuleSection { by } => numbers[5] = module(by),
        Error::TooLarge { size, .. } => numbers[2] = *size,
        Error::NotAnOrder { place } => numbers[1] = *place,
        Error::Dangling { space, index, by } => {
            (numbers[3], numbers[4], numbers[5]) = (space.number().into(), (*index).into(), module(by));
        }
        Error::ExportClash { name: clash } => {
            numbers[0] = clash.len() as u64;
            if !clash.is_empty() {
                name = hex(clash.as_bytes());
            }
        }
        Error::Uneven { stated, rows, by } => {
            (numbers[5], numbers[7], numbers[8]) = (module(by), (*stated).into(), (*rows).into());
        }
        Error::RepeatedSection { id, by } => (numbers[5], numbers[9]) = (module(by), (*id).into()),
        _ => {}
    }
    (numbers, name)
}

fn main() -> io::Result<()> {
    let mut out = io::BufWriter::new(io::stdout().lock());
    for line in io::stdin().lock().lines() {
        let line = line?;
        let words: Vec<&str> = line.split_whitespace().collect();
        let [call, ceiling, strict, entries, data] = words[..] else { panic!("no case: {line}") };
        match run(call, ceiling.parse().expect("a ceiling"), strict == "1", entries, data) {
            Ok((length, count, made)) => {
                writeln!(out, "0 {length} 0 0 0 0 0 {count} 0 0 0 {}", if made.is_empty() { "-" } else { &made })?;
            }
            Err(error) => {
                let (numbers, name) = told(&error);
                let numbers = numbers.map(|number| number.to_string()).join(" ");
                writeln!(out, "{} {numbers} {name}", error.status())?;
            }
        }
    }
    out.flush()
}

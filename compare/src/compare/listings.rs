//! Listings as they are compared: what the program `reading` prints, run once for each case in a folder that has the book, and what the
//! independent reader lists.
use super::outcomes::{Outcomes, Targets, Times};
use super::{add, hex, in_threads, print_by_kind, print_missing, print_missing_targets};
use super::{print_rate, told_alike, ByKind, Tally, THREADS};
use crate::cases::{self, Listing};
use crate::independent;
use crate::progress;
use crate::random::Random;
use std::fs;
use std::io::{self, ErrorKind, Write};
use std::path::{Path, PathBuf};
use std::process::{self, Command, Output, Stdio};
use std::sync::atomic::{AtomicBool, AtomicU64, Ordering};
use std::time::{Duration, Instant};

/// What a program printed when it ended with status 0, or what went otherwise.
type Printed = Result<Vec<u8>, String>;

/// A program that is run on a case in a folder.
type Program<'a> = &'a (dyn Fn(&Listing, &Path) -> Printed + Sync);

/// Compares the listings of the program at a path with the independent reader's on the given number of cases; false after the first
/// difference.
pub fn run(path: &str, cases: u64, seed: u64) -> bool {
    // The program is run in another folder than this one.
    match fs::canonicalize(path) {
        Ok(path) => compared(cases, seed, &|case, folder| printed(&path, case, folder)),
        Err(error) => {
            eprintln!("{path}: {error}");
            false
        }
    }
}

fn compared(cases: u64, seed: u64, program: Program) -> bool {
    let start = Instant::now();
    let comparison = Comparison {
        program,
        seed,
        differ: AtomicBool::new(false),
    };
    let parts = progress::shown(cases, |done| {
        in_threads(|first| comparison.part(first, cases, done))
    });
    let mut tallies = ByKind::new();
    for part in &parts {
        add(&mut tallies, part);
    }
    print_tallies(&tallies, start.elapsed());
    told_alike(comparison.differ)
}

/// A comparison of a program with the independent reader.
struct Comparison<'a> {
    program: Program<'a>,
    seed: u64,
    differ: AtomicBool,
}

impl Comparison<'_> {
    /// The cases of one thread, up to the first difference in any.
    fn part(&self, first: u64, cases: u64, done: &AtomicU64) -> ByKind<ListingTally> {
        let folder = Folder::new();
        let mut tallies = ByKind::new();
        for number in (first..cases).step_by(THREADS as usize) {
            if self.differ.load(Ordering::Relaxed) {
                break;
            }
            let case = cases::listing(&mut Random::for_case(self.seed, number));
            self.compare(number, &case, &folder, &mut tallies);
            done.fetch_add(1, Ordering::Relaxed);
        }
        tallies
    }

    /// Compares one case and counts it.
    fn compare(
        &self,
        number: u64,
        case: &Listing,
        folder: &Folder,
        tallies: &mut ByKind<ListingTally>,
    ) {
        let begun = Instant::now();
        let expected = expected(case);
        let tally = tallies.entry(case.kind).or_default();
        tally.count(&expected, begun.elapsed());
        let other = (self.program)(case, &folder.path);
        let alike = other.as_ref() == Ok(&expected);
        if !alike && !self.differ.swap(true, Ordering::Relaxed) {
            println!("DIFFERENCE in case {number} of seed {}", self.seed);
            print_case(case);
            print_output("independent", &Ok(expected));
            print_output("program", &other);
        }
    }
}

/// The independent reader's listing. A file that is not there counts as an empty book.
fn expected(case: &Listing) -> Vec<u8> {
    let book = case.book.as_deref().unwrap_or_default();
    independent::reading(book, &case.input)
}

// The program

/// A folder for the runs of one thread, which is removed with all that is in it when they are over.
struct Folder {
    path: PathBuf,
}

impl Folder {
    /// A folder with the first name that is free.
    fn new() -> Folder {
        let named = |number| format!("compare-listings-{}-{number}", process::id());
        let mut paths = (0..1_000).map(|number| std::env::temp_dir().join(named(number)));
        let path = paths.find(|path| fs::create_dir(path).is_ok());
        Folder {
            path: path.expect("a folder can be made"),
        }
    }
}

impl Drop for Folder {
    fn drop(&mut self) {
        let _ = fs::remove_dir_all(&self.path);
    }
}

/// What the program at a path prints for a case.
fn printed(path: &Path, case: &Listing, folder: &Path) -> Printed {
    let output = put_book(case, folder).and_then(|()| output(path, case, folder));
    let output = output.map_err(|error| error.to_string())?;
    match output.status.code() {
        Some(0) => Ok(output.stdout),
        _ => {
            let printed = output.stdout.escape_ascii();
            Err(format!("{}, with {printed} printed", output.status))
        }
    }
}

/// Writes the book to its file, or sees that there is none.
fn put_book(case: &Listing, folder: &Path) -> io::Result<()> {
    let file = folder.join("book.bin");
    match &case.book {
        Some(book) => fs::write(file, book),
        None => but(ErrorKind::NotFound, fs::remove_file(file)),
    }
}

/// Runs the program in the folder, with the case's input on standard input.
fn output(path: &Path, case: &Listing, folder: &Path) -> io::Result<Output> {
    let mut child = Command::new(path)
        .current_dir(folder)
        .stdin(Stdio::piped())
        .stdout(Stdio::piped())
        .spawn()?;
    let mut input = child.stdin.take().expect("standard input is piped");
    // The program may end before it has read what stands behind the line.
    let written = but(ErrorKind::BrokenPipe, input.write_all(&case.input));
    drop(input);
    let output = child.wait_with_output()?;
    written.map(|()| output)
}

/// What was done, with one kind of error let pass.
fn but(kind: ErrorKind, done: io::Result<()>) -> io::Result<()> {
    match done {
        Err(error) if error.kind() == kind => Ok(()),
        other => other,
    }
}

// What is printed of a difference

fn print_case(case: &Listing) {
    println!("kind: {}", case.kind);
    match &case.book {
        Some(book) => println!("book in hex: {}", hex(book)),
        None => println!("no file book.bin"),
    }
    println!("input in hex: {}", hex(&case.input));
    println!("input: {}", case.input.escape_ascii());
}

fn print_output(name: &str, output: &Printed) {
    match output {
        Ok(listing) => {
            println!("{name}:");
            for row in listing.split_inclusive(|byte| *byte == 10) {
                println!("    {}", row.escape_ascii());
            }
        }
        Err(otherwise) => println!("{name}: {otherwise}"),
    }
}

// What is counted

/// How many type rows have each letter.
#[derive(Default)]
struct Letters {
    same: u64,
    different: u64,
}

impl Letters {
    fn count(&mut self, letter: &str) {
        match letter {
            "e" => self.same += 1,
            _ => self.different += 1,
        }
    }

    fn add(&mut self, other: &Letters) {
        self.same += other.same;
        self.different += other.different;
    }

    /// How often each letter occurred.
    fn numbers(&self) -> String {
        format!("e: {}, t: {}", self.same, self.different)
    }
}

/// Outcomes of lines that are not too long for the program, how many are, the targets that lines are read for, and the letters of
/// all type rows and of those of unlinked types.
#[derive(Default)]
struct ListingTally {
    all: Outcomes,
    long: u64,
    targets: Targets,
    letters: Letters,
    unlinked: Letters,
    times: Times,
}

impl ListingTally {
    /// Counts the independent reader's listing.
    fn count(&mut self, listing: &[u8], time: Duration) {
        let listing = String::from_utf8_lossy(listing);
        for row in listing.lines() {
            self.count_row(&row.split(' ').collect::<Vec<_>>());
        }
        self.times.count(time);
    }

    fn count_row(&mut self, row: &[&str]) {
        match *row {
            ["long"] => self.long += 1,
            ["no", number, value] => {
                let refusal = (number_of(number) as u32, number_of(value));
                self.all.count::<()>(&Err(refusal));
            }
            ["yes", _, _, target] => {
                self.all.count(&Ok(()));
                self.targets.count(&[number_of(target) as u16]);
            }
            [position, _, _, partner, letter] => {
                self.letters.count(letter);
                if position == partner {
                    self.unlinked.count(letter);
                }
            }
            _ => {}
        }
    }

    fn cases(&self) -> u64 {
        self.all.all + self.long
    }
}

fn number_of(text: &str) -> u64 {
    text.parse().expect("the listing has a number here")
}

impl Tally for ListingTally {
    fn add(&mut self, other: &ListingTally) {
        self.all.add(&other.all);
        self.long += other.long;
        self.targets.add(&other.targets);
        self.letters.add(&other.letters);
        self.unlinked.add(&other.unlinked);
        self.times.add(&other.times);
    }

    fn print(&self, kind: &str) {
        println!(
            "listings, {kind}: {} cases, {} yes, {} long, {}",
            self.cases(),
            self.all.answered,
            self.long,
            self.all.refusals()
        );
        println!(
            "    {}, type rows {}, of these unlinked {}",
            self.targets.numbers(),
            self.letters.numbers(),
            self.unlinked.numbers()
        );
        self.times.print(self.cases());
    }
}

fn print_tallies(tallies: &ByKind<ListingTally>, time: Duration) {
    let all = print_by_kind(tallies);
    print_missing("listings", &all.all, &[1..=15, 19..=21]);
    print_missing_targets("listings", &all.targets);
    print_rate(all.cases(), time);
}

#[cfg(test)]
mod tests {
    use super::*;
    use crate::books::first_book;
    use crate::cases::AMPLE;
    use crate::readers::TWIN;
    use crate::types::Refusal;

    /// Whether a program that changes the rows of the independent reader's listing comes through without a difference.
    fn alike(change: impl Fn(&[&str]) -> String + Sync) -> bool {
        compared(2_000, 3, &|case, _| {
            let listing = String::from_utf8(expected(case)).expect("the listing is ASCII");
            let changed = |row: &str| change(&row.split(' ').collect::<Vec<_>>()) + "\n";
            let rows: String = listing.lines().map(changed).collect();
            Ok(rows.into_bytes())
        })
    }

    /// The row with another last part where it is a type row that the test picks.
    fn last(row: &[&str], picks: impl Fn(&[&str]) -> bool, letter: &str) -> String {
        match row.len() == 5 && picks(row) {
            true => [&row[..4], &[letter]].concat().join(" "),
            false => row.join(" "),
        }
    }

    #[test]
    fn differences_are_found() {
        assert!(alike(|row| row.join(" ")));
        // One letter for all, or for all unlinked types.
        assert!(!alike(|row| last(row, |_| true, "e")));
        assert!(!alike(|row| last(row, |_| true, "t")));
        assert!(!alike(|row| last(row, |row| row[0] == row[3], "e")));
        assert!(!alike(|row| last(row, |row| row[0] == row[3], "t")));
        // One letter at an odd exponent, or at a far one.
        assert!(!alike(|row| last(row, |row| row[2] == "-1", "e")));
        assert!(!alike(|row| last(row, |row| row[2] == "2", "e")));
        assert!(!alike(|row| last(row, |row| row[2] == "-8", "e")));
        assert!(!alike(|row| last(row, |row| row[2] == "8", "t")));
        // Words in small letters, exponents without a sign, no letters, and a space behind each row.
        assert!(!alike(|row| row.join(" ").to_ascii_lowercase()));
        assert!(!alike(|row| row.join(" ").replace(" -", " ")));
        assert!(!alike(|row| row[..row.len().min(4)].join(" ")));
        assert!(!alike(|row| row.join(" ") + " "));
    }

    #[test]
    fn differences_in_file_and_input_are_found() {
        let listing = |book: &[u8], input: &[u8]| Ok(independent::reading(book, input));
        let book = |case: &Listing| case.book.clone().unwrap_or_default();
        let wrong: [Program; 6] = [
            // Where there is no file, a book is taken all the same, or nothing printed.
            &|case, _| match &case.book {
                Some(book) => listing(book, &case.input),
                None => listing(&first_book().bytes(), &case.input),
            },
            &|case, _| match &case.book {
                Some(book) => listing(book, &case.input),
                None => Ok(vec![]),
            },
            // The last byte of the input is no part of the line, whichever it is.
            &|case, _| {
                let line = case.input.split_last().map_or(&[][..], |(_, line)| line);
                listing(&book(case), line)
            },
            // Byte 10 is a space.
            &|case, _| {
                let space = |byte: &u8| if *byte == 10 { b' ' } else { *byte };
                let input: Vec<u8> = case.input.iter().map(space).collect();
                listing(&book(case), &input)
            },
            // No line is too long.
            &|case, _| {
                let output = expected(case);
                match output == b"long\n" {
                    true => Ok(b"no 15 0\n".to_vec()),
                    false => Ok(output),
                }
            },
            // Another exit status.
            &|case, _| match expected(case).starts_with(b"long") {
                true => Err("exit status: 1".to_string()),
                false => Ok(expected(case)),
            },
        ];
        for (number, program) in wrong.into_iter().enumerate() {
            assert!(!compared(4_000, 3, program), "{number}");
        }
    }

    fn case(book: Option<&[u8]>, input: &[u8]) -> Listing {
        Listing {
            kind: "",
            book: book.map(<[u8]>::to_vec),
            input: input.to_vec(),
        }
    }

    /// Programs that are there on every Unix stand for the one that is compared.
    #[test]
    fn programs_are_run() {
        let folder = Folder::new();
        let run = |path: &str, book: Option<&[u8]>, input: &[u8]| {
            printed(Path::new(path), &case(book, input), &folder.path)
        };
        // One prints its input, the other what is in the folder.
        assert_eq!(run("/bin/cat", None, b"go\n\0"), Ok(b"go\n\0".to_vec()));
        assert_eq!(run("/bin/ls", None, b"go\n"), Ok(vec![]));
        assert_eq!(
            run("/bin/ls", Some(b"x"), b"go\n"),
            Ok(b"book.bin\n".to_vec())
        );
        assert_eq!(fs::read(folder.path.join("book.bin")).unwrap(), b"x");
        assert_eq!(run("/bin/ls", None, &[0; 200_000]), Ok(vec![]));
        assert!(run("/bin/false", None, b"go\n").is_err());
        assert!(run("/bin/no such program", None, b"go\n").is_err());
        let path = folder.path.clone();
        drop(folder);
        assert!(!path.exists());
    }

    /// The values that a listing tells, as they stand in an answer: of the first row, of the word rows and of the type rows.
    fn values_of(listing: &str) -> Result<Vec<u16>, Refusal> {
        let (mut first, mut entries, mut partners) = (vec![], vec![], vec![]);
        let value = |text: &str| number_of(text) as u16;
        for row in listing.lines() {
            match row.split(' ').collect::<Vec<_>>()[..] {
                ["no", number, value] => return Err((number_of(number) as u32, number_of(value))),
                ["yes", n, m, target] => first = vec![value(target), value(n), value(m)],
                [_, _, entry] => entries.push(value(entry)),
                [_, _, _, partner, _] => partners.push(value(partner)),
                _ => panic!("{row} is no row"),
            }
        }
        Ok([&first[..2], &entries, &first[2..], &partners].concat())
    }

    #[test]
    fn listings_tell_what_the_twin_answers() {
        for number in 0..10_000 {
            let case = cases::listing(&mut Random::for_case(4, number));
            let listing = String::from_utf8(expected(&case)).expect("the listing is ASCII");
            if listing == "long\n" {
                continue;
            }
            let book = case.book.as_deref().unwrap_or_default();
            let line = case.input.split(|byte| *byte == 10).next().unwrap();
            let mut answer = [0; AMPLE];
            let read = (TWIN.read_line)(book, line, &mut answer);
            let told = read.map(|values| answer[..values as usize].to_vec());
            assert_eq!(values_of(&listing), told, "case {number}");
        }
    }

    #[test]
    fn rows_are_counted() {
        let mut tally = ListingTally::default();
        for input in ["fetch bed4 ward7", "go", "admit site", &"go ".repeat(2_000)] {
            let case = case(Some(&first_book().bytes()), input.as_bytes());
            tally.count(&expected(&case), Duration::ZERO);
        }
        assert_eq!((tally.cases(), tally.all.answered, tally.long), (4, 2, 1));
        assert_eq!(tally.all.refused[15], 1);
        assert_eq!(tally.letters.numbers(), "e: 4, t: 2");
        assert_eq!(tally.unlinked.numbers(), "e: 2, t: 0");
    }
}

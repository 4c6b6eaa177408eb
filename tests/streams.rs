// An independent implementation of the program `classify`, for comparison with it on random streams of records. Written from the
// rules, with brute force, and standing on nothing of the library.
//
//   streams answers                       prints the lines for the stream of standard input
//   streams generate SEED COUNT FOLDER    writes random streams, and the lines for each beside it, into a folder
//   streams compare SEED COUNT [PROGRAM..]
//                                         runs the programs on random streams, and prints how many there were of each answer
//   streams checked FOLDER [PROGRAM..]    runs this implementation and the programs on the streams of a folder, whose lines were
//                                         worked out by hand
//
// Refusal 7 never comes from a stream, since a stream withdraws nothing.
mod catalogue;
mod draw;
mod draw_streams;
mod rules;

use catalogue::{answers, first_record};
use std::fs::{self, File};
use std::io::{self, Read, Write};
use std::path::{Path, PathBuf};
use std::process::{exit, Command, Stdio};
use std::sync::Mutex;
use std::thread;

const THREADS: u64 = 2;
// Held by the thread that shows a difference, so that only one is shown.
static SHOWN: Mutex<()> = Mutex::new(());

// How many lines there were of each sort.
#[derive(Default)]
struct Counts {
    streams: usize,
    sorts: Vec<(String, usize)>,
}

impl Counts {
    fn add(&mut self, sort: &str, count: usize) {
        match self.sorts.iter_mut().find(|(name, _)| name == sort) {
            Some((_, sum)) => *sum += count,
            None => self.sorts.push((sort.into(), count)),
        }
    }

    fn add_stream(&mut self, lines: &str) {
        self.streams += 1;
        for line in lines.lines() {
            let words: Vec<&str> = line.split(' ').collect();
            match words[..] {
                [what, _, "entered"] => self.add(what, 1),
                ["refused", "8", _, table] => self.add(&format!("refused 8 {table}"), 1),
                ["refused", number, ..] => self.add(&format!("refused {number}"), 1),
                [_, status, "mismatch"] => self.add(&format!("{status} mismatch"), 1),
                [_, "specific" | "generic" | "tentative"] => self.add(words[1], 1),
                [status, _] => self.add(&format!("report {status}"), 1),
                _ => panic!("no such line: {line}"),
            }
        }
    }

    fn add_all(&mut self, other: Counts) {
        self.streams += other.streams;
        for (sort, count) in other.sorts {
            self.add(&sort, count);
        }
    }

    fn of(&self, sort: &str) -> usize {
        let found = self.sorts.iter().find(|(name, _)| name == sort);
        found.map_or(0, |(_, count)| *count)
    }

    // The counts of some sorts, whose names begin alike.
    fn each(&self, before: &str, sorts: &[&str]) -> String {
        let one = |sort: &&str| format!("{sort}: {}", self.of(&format!("{before}{sort}")));
        sorts.iter().map(one).collect::<Vec<_>>().join(", ")
    }

    // One line. Each sort of answer is named, also one that never came.
    fn line(&self) -> String {
        let refused = ["1", "2", "3", "4", "5", "6", "8 1", "8 2", "8 3"];
        let statuses = [
            "specific",
            "specific mismatch",
            "generic",
            "generic mismatch",
            "tentative",
        ];
        let parts = [
            format!("{} random streams", self.streams),
            format!("entered {}", self.each("", &["signature", "format"])),
            format!("refused with {}", self.each("refused ", &refused)),
            format!(
                "readings {}",
                self.each("report ", &["positive", "tentative", "negative"])
            ),
            format!("listed {}", self.each("", &statuses)),
        ];
        parts.join("; ")
    }
}

// What a program prints for the stream of a file. A program that is killed, as after a bad access, adds a line of its own.
fn printed(program: &str, file: &Path) -> String {
    let output = Command::new(program)
        .stdin(File::open(file).unwrap())
        .stderr(Stdio::inherit())
        .output()
        .unwrap_or_else(|error| fail(&format!("cannot run {program}: {error}")));
    let mut lines = String::from_utf8_lossy(&output.stdout).into_owned();
    if output.status.code().is_none() {
        lines += &format!("{}\n", output.status);
    }
    lines
}

fn fail(why: &str) -> ! {
    eprintln!("streams: {why}");
    exit(1)
}

// A stream in hexadecimal, each record on a line, as the files of hand-checked streams have it.
fn hexadecimal(stream: &[u8]) -> String {
    let mut lines = String::new();
    let mut rest = stream;
    while !rest.is_empty() {
        let (record, behind) = first_record(rest).unwrap_or((rest, &[]));
        let bytes: String = record.iter().map(|byte| format!(" {byte:02X}")).collect();
        lines += &format!("<{bytes}\n");
        rest = behind;
    }
    lines
}

// Every stream that lacks one record of this one.
fn shorter(stream: &[u8]) -> Vec<Vec<u8>> {
    let (mut at, mut all) = (0, vec![]);
    while let Some((record, behind)) = first_record(&stream[at..]) {
        if record.is_empty() {
            break;
        }
        all.push([&stream[..at], behind].concat());
        at += record.len();
    }
    all
}

// Shows a stream that a program answers otherwise, without the records that the difference does not need, and ends.
fn show_difference(program: &str, mut stream: Vec<u8>, file: &Path) -> ! {
    let _shown = SHOWN.lock();
    let mut differs = |stream: &Vec<u8>| {
        fs::write(file, stream).unwrap();
        printed(program, file) != answers(stream)
    };
    while let Some(smaller) = shorter(&stream).into_iter().find(&mut differs) {
        stream = smaller;
    }
    fs::write(file, &stream).unwrap();
    let quoted = |lines: &str| -> String { lines.lines().map(|l| format!("> {l}\n")).collect() };
    let expected = quoted(&answers(&stream));
    let found = quoted(&printed(program, file));
    let _ = fs::remove_file(file);
    let stream = hexadecimal(&stream);
    fail(&format!(
        "the program {program} differs:\n{stream}by the rules:\n{expected}it printed:\n{found}"
    ))
}

// A file for streams that no other thread and no other run writes.
fn own_file(number: u64) -> PathBuf {
    let name = format!("streams-{}-{number}", std::process::id());
    std::env::temp_dir().join(name)
}

// Runs the programs on the random streams of one thread.
fn compare_some(seed: u64, count: u64, first: u64, programs: &[String]) -> Counts {
    let file = own_file(first);
    let mut counts = Counts::default();
    for number in (first..count).step_by(THREADS as usize) {
        let stream = draw_streams::stream(seed, number);
        let expected = answers(&stream);
        if !programs.is_empty() {
            fs::write(&file, &stream).unwrap();
        }
        for program in programs {
            if printed(program, &file) != expected {
                show_difference(program, stream, &file);
            }
        }
        counts.add_stream(&expected);
    }
    let _ = fs::remove_file(&file);
    counts
}

fn compare(seed: u64, count: u64, programs: &[String]) {
    let mut sum = Counts::default();
    thread::scope(|scope| {
        let one = |first| scope.spawn(move || compare_some(seed, count, first, programs));
        let threads: Vec<_> = (0..THREADS).map(one).collect();
        for thread in threads {
            sum.add_all(thread.join().unwrap());
        }
    });
    println!("{}", sum.line());
}

fn generate(seed: u64, count: u64, folder: &str) {
    for number in 0..count {
        let stream = draw_streams::stream(seed, number);
        let file = format!("{folder}/stream{number:05}");
        fs::write(format!("{file}.stdout"), answers(&stream)).unwrap();
        fs::write(file, stream).unwrap();
    }
}

// The bytes of a line: two hexadecimal digits each, `00*20` twenty bytes 00, and text in quotation marks.
fn bytes_of(line: &str) -> Vec<u8> {
    let mut bytes = vec![];
    for (k, part) in line.split('"').enumerate() {
        if k % 2 == 1 {
            bytes.extend(part.bytes());
            continue;
        }
        for word in part.split_whitespace() {
            let (byte, times) = word.split_once('*').unwrap_or((word, "1"));
            let byte = u8::from_str_radix(byte, 16).unwrap();
            bytes.resize(bytes.len() + times.parse::<usize>().unwrap(), byte);
        }
    }
    bytes
}

// The stream of a hand-checked file, and its lines. A line with < gives bytes, one with > a line that is printed.
fn hand_checked(text: &str) -> (Vec<u8>, String) {
    let (mut stream, mut lines) = (vec![], String::new());
    for line in text.lines() {
        match line.split_at_checked(1) {
            Some(("<", rest)) => stream.extend(bytes_of(rest)),
            Some((">", rest)) => lines += &format!("{}\n", rest.trim()),
            Some(("#", _)) | None => {}
            _ => fail(&format!("no line of a hand-checked stream: {line}")),
        }
    }
    (stream, lines)
}

fn check(folder: &str, programs: &[String]) {
    let entries = fs::read_dir(folder).unwrap();
    let mut names: Vec<PathBuf> = entries.map(|entry| entry.unwrap().path()).collect();
    names.sort();
    let file = own_file(THREADS);
    for name in &names {
        let (stream, expected) = hand_checked(&fs::read_to_string(name).unwrap());
        fs::write(&file, &stream).unwrap();
        let own = ("streams", answers(&stream));
        let others = programs.iter().map(|p| (p.as_str(), printed(p, &file)));
        for (who, found) in std::iter::once(own).chain(others) {
            if found != expected {
                let _ = fs::remove_file(&file);
                let name = name.display();
                fail(&format!(
                    "{name}: by hand:\n{expected}{who} printed:\n{found}"
                ));
            }
        }
    }
    let _ = fs::remove_file(&file);
    println!("{} hand-checked streams", names.len());
}

fn main() {
    let words: Vec<String> = std::env::args().skip(1).collect();
    let number = |word: &String| word.parse::<u64>().unwrap();
    match &words[..] {
        [verb] if verb == "answers" => {
            let mut stream = vec![];
            io::stdin().read_to_end(&mut stream).unwrap();
            io::stdout().write_all(answers(&stream).as_bytes()).unwrap();
        }
        [verb, seed, count, folder] if verb == "generate" => {
            generate(number(seed), number(count), folder)
        }
        [verb, seed, count, programs @ ..] if verb == "compare" => {
            compare(number(seed), number(count), programs)
        }
        [verb, folder, programs @ ..] if verb == "checked" => check(folder, programs),
        _ => fail("the top of tests/streams.rs says how it is run"),
    }
}

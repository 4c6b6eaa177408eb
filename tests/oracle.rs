// An independent implementation of the rules of docs/, for random comparison with `probe`. Written from the rules, with
// brute force, and standing on nothing of the library.
//
//   oracle lines SEED COUNT   prints random lines for `probe`, good ones and damaged ones
//   oracle answers            answers the lines of standard input
mod draw;
mod rules;

use draw::Random;
use rules::{checked, codes, fragments, hits, span, Item, Kind, Placed};
use std::io::{self, BufRead, Write};

fn pair_of(kind: Kind, code: u16) -> String {
    match (kind, code) {
        (Kind::Byte, _) => format!("{code:02X}"),
        (Kind::Mark, 0) => "U0".into(),
        (Kind::Mark, 16..=25) => format!("S{}", code - 16),
        (Kind::Mark, _) => format!("D{}", code - 32),
    }
}

// The fewest elements that an item matches.
fn least(item: &Item) -> u64 {
    match item {
        Item::Group(runs) => runs.iter().map(Vec::len).min().unwrap() as u64,
        Item::Gap(least, _) => *least,
        other => span(other).unwrap(),
    }
}

// Break, lead, anchor length and shift of a fragment, counted from 1 in the order of the reference.
fn shown(items: &[Placed], from_back: bool, lo: u64, fragment: usize, index: u8) -> Option<String> {
    let parts = fragments(items);
    if fragment == 0 || fragment > parts.len() {
        return None;
    }
    let at = if from_back {
        parts.len() - fragment
    } else {
        fragment - 1
    };
    let row = if from_back {
        parts.get(at + 1).map(|p| &p.0)
    } else {
        Some(&parts[at].0)
    };
    let gap = if fragment == 1 {
        lo
    } else {
        row.unwrap().iter().map(|(_, i)| least(i)).sum()
    };
    let body = &parts[at].1;
    let literal = |k: usize| matches!(body[k].1, Item::Literal(_));
    let (mut start, mut end) = (0, 0);
    for s in 0..body.len() {
        for e in s + 1..=body.len() {
            if (s..e).all(literal) && e - s >= end - start {
                (start, end) = (s, e);
            }
        }
    }
    let outside = if from_back {
        &body[end..]
    } else {
        &body[..start]
    };
    let lead: u64 = outside.iter().map(|(_, i)| least(i)).sum();
    let len = end - start;
    let distance = |k: usize| if from_back { k - start + 1 } else { end - k };
    let same = |k: &usize| matches!(body[*k].1, Item::Literal(c) if c % 256 == u16::from(index));
    let shift = (start..end)
        .filter(same)
        .map(distance)
        .min()
        .unwrap_or(len + 1);
    Some(format!("{gap} {lead} {len} {shift}"))
}

fn kind_of(word: &str) -> Kind {
    if word == "mark" {
        Kind::Mark
    } else {
        Kind::Byte
    }
}

fn answer(line: &str) -> String {
    let words: Vec<&str> = line.split(' ').collect();
    let text = |k: usize| words[k].as_bytes();
    let refused = |(number, place)| format!("refused {number} 1 {place}");
    let pattern = if words[0] == "read" {
        words[2]
    } else {
        words[5]
    };
    if pattern.len() > 200 {
        return "error: the text has more than 200 characters".into();
    }
    match words[..] {
        ["read", kind, _] => match checked(kind_of(kind), text(2)) {
            Ok(items) => format!("ok {}", fragments(&items).len()),
            Err(refusal) => refused(refusal),
        },
        ["show", kind, reference, lo, _, _, fragment, index] => {
            match checked(kind_of(kind), text(5)) {
                Ok(items) => {
                    let (lo, fragment) = (lo.parse().unwrap(), fragment.parse().unwrap());
                    let index = u8::from_str_radix(index, 16).unwrap();
                    let numbers = shown(&items, reference == "E", lo, fragment, index);
                    numbers.unwrap_or("none".into())
                }
                Err(refusal) => refused(refusal),
            }
        }
        ["hit", kind, reference, lo, hi, _, elements] => match checked(kind_of(kind), text(5)) {
            Ok(items) => {
                let pairs = if elements == "-" { "" } else { elements };
                let reading = codes(kind_of(kind), pairs.as_bytes());
                let (lo, hi) = (lo.parse().unwrap(), hi.parse().unwrap());
                let hit = hits(&items, reference.as_bytes()[0], lo, hi, &reading);
                if hit { "hit" } else { "miss" }.into()
            }
            Err(refusal) => refused(refusal),
        },
        _ => panic!("no answer to {line}"),
    }
}

impl Random {
    // A reading that a sequence often hits: a stretch that its items match, at times with small damage, and surroundings.
    fn reading(&mut self, kind: Kind, text: &str, before: usize, behind: usize) -> Vec<u16> {
        let checked = checked(kind, text.as_bytes());
        let far = |i: &Placed| matches!(i.1, Item::Gap(_, Some(30..)));
        let has_far = checked.as_ref().is_ok_and(|items| items.iter().any(far));
        let wide = self.once_in(if has_far { 6 } else { 25 });
        let mut all = vec![];
        match checked {
            Ok(items) if !self.once_in(8) => {
                for (_, item) in &items {
                    all.extend(self.stretch(kind, item, wide));
                }
            }
            _ => {
                let count = self.below(25);
                all = self.elements(kind, count);
            }
        }
        let places = self.pick(&[0, 0, 1, 1, 2, 3]);
        self.disturb(kind, &mut all, places);
        let mut reading = self.elements(kind, before);
        reading.append(&mut all);
        reading.extend(self.elements(kind, behind));
        reading.truncate(if wide { 1200 } else { 30 });
        reading
    }

    fn hit_line(&mut self) -> String {
        let kind = if self.once_in(3) {
            Kind::Mark
        } else {
            Kind::Byte
        };
        let name = if kind == Kind::Mark { "mark" } else { "byte" };
        self.letters = self.pick(&[2, 3, 3, 4, 7]);
        let text = self.searched_text(kind);
        let reference = self.pick(&["B", "E", "V"]);
        let lo = if reference == "V" { 0 } else { self.below(4) };
        let hi = if reference == "V" {
            0
        } else {
            lo + self.below(4)
        };
        let (mut before, mut behind) = (self.below(6), self.below(6));
        if !self.once_in(5) {
            match reference {
                "B" => before = lo + self.below(hi - lo + 1),
                "E" => behind = lo + self.below(hi - lo + 1),
                _ => {}
            }
        }
        let reading = if self.once_in(40) {
            vec![]
        } else {
            self.reading(kind, &text, before, behind)
        };
        let elements: String = reading.iter().map(|code| pair_of(kind, *code)).collect();
        let elements = if elements.is_empty() { "-" } else { &elements };
        self.letters = usize::MAX;
        format!("hit {name} {reference} {lo} {hi} {text} {elements}")
    }

    // A line: a search as often as not.
    fn line(&mut self) -> String {
        if self.once_in(2) {
            return self.hit_line();
        }
        let kind = if self.once_in(3) {
            Kind::Mark
        } else {
            Kind::Byte
        };
        let name = if kind == Kind::Mark { "mark" } else { "byte" };
        let text = self.text(kind);
        if self.once_in(2) {
            return format!("read {name} {text}");
        }
        let reference = self.pick(&["B", "E", "V"]);
        let lo = if reference == "V" { 0 } else { self.below(20) };
        let hi = if reference == "V" {
            0
        } else {
            lo + self.below(20)
        };
        let index = self.pick(&["41", "42", "43", "44", "00", "7F", "FF", "10", "19", "24"]);
        let fragment = self.below(4);
        format!("show {name} {reference} {lo} {hi} {text} {fragment} {index}")
    }
}

fn main() {
    let words: Vec<String> = std::env::args().collect();
    let mut out = io::BufWriter::new(io::stdout());
    match words.get(1).map(String::as_str) {
        Some("lines") => {
            let mut random = Random::new(words[2].parse().unwrap());
            for _ in 0..words[3].parse::<usize>().unwrap() {
                writeln!(out, "{}", random.line()).unwrap();
            }
        }
        Some("answers") => {
            for line in io::stdin().lock().lines() {
                writeln!(out, "{}", answer(&line.unwrap())).unwrap();
            }
        }
        _ => eprintln!("oracle lines SEED COUNT, or oracle answers"),
    }
}

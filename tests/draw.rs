// Random numbers, and random pattern texts, elements and stretches that a text matches. Elements are drawn from few letters, so
// that readings and texts often agree.
use crate::rules::{checked, codes, matches, Item, Kind};

// A small generator of random numbers. Elements are drawn from the first `letters` of a list.
pub struct Random {
    state: u64,
    pub letters: usize,
}

impl Random {
    pub fn new(seed: u64) -> Self {
        let letters = usize::MAX;
        Random {
            state: seed,
            letters,
        }
    }

    pub fn below(&mut self, n: usize) -> usize {
        self.state = self
            .state
            .wrapping_mul(6364136223846793005)
            .wrapping_add(1442695040888963407);
        ((self.state >> 33) as usize) % n
    }

    pub fn pick<T: Copy>(&mut self, of: &[T]) -> T {
        of[self.below(of.len())]
    }

    // Whether one of `n` cases has come, all of them alike.
    pub fn once_in(&mut self, n: usize) -> bool {
        self.below(n) == 0
    }

    fn pair(&mut self, kind: Kind) -> &'static str {
        let all: &[&'static str] = match kind {
            Kind::Byte => &["41", "42", "43", "44", "00", "7F", "FF", "10", "A9"],
            Kind::Mark => &["S1", "D4", "U0", "S0", "S9", "D0", "D9", "S5"],
        };
        self.pick(&all[..all.len().min(self.letters)])
    }

    pub fn run(&mut self, kind: Kind, len: usize) -> String {
        (0..len).map(|_| self.pair(kind)).collect()
    }

    // A thing, or some literals.
    pub fn thing(&mut self, kind: Kind) -> String {
        let len = 1 + self.below(3);
        match self.below(10) {
            0 => "??".into(),
            1 => {
                let lens: Vec<usize> = (0..2 + self.below(2)).map(|_| 1 + self.below(3)).collect();
                let runs: Vec<String> = lens.into_iter().map(|n| self.run(kind, n)).collect();
                format!("({})", runs.join("|"))
            }
            2 => {
                let other = if self.once_in(12) { len + 1 } else { len };
                let (mut low, mut high) = (self.run(kind, len), self.run(kind, other));
                let turned = codes(kind, low.as_bytes()) > codes(kind, high.as_bytes());
                if turned && !self.once_in(8) {
                    std::mem::swap(&mut low, &mut high);
                }
                format!("[{}{low}:{high}]", self.pick(&["", "", "!"]))
            }
            3 => format!("[!{}]", self.run(kind, len)),
            _ => self.run(kind, len),
        }
    }

    pub fn gap(&mut self) -> String {
        let (m, n) = (self.below(6), self.below(9));
        match self.below(9) {
            0..=2 => "*".into(),
            3 => format!("{{{m}}}"),
            4 => format!("{{{m}-*}}"),
            5 if self.once_in(4) => format!("{{{m:03}-{n}}}"),
            6 if self.once_in(4) => format!("{{0-{}}}", self.below(1030)),
            _ => format!("{{{}-{}}}", m.min(n), m.max(n)),
        }
    }

    // A text of up to `things` things.
    pub fn whole_text(&mut self, kind: Kind, things: usize) -> String {
        let mut text = self.thing(kind);
        for _ in 0..self.below(things) {
            for _ in 0..self.pick(&[0, 0, 1, 1, 2]) {
                text += &self.gap();
            }
            text += &self.thing(kind);
        }
        text
    }

    pub fn text(&mut self, kind: Kind) -> String {
        let things = if self.once_in(24) { 90 } else { 9 };
        let text = self.whole_text(kind, things);
        if self.once_in(3) {
            self.damage(text)
        } else {
            text
        }
    }

    // A text of up to `things` things that is not refused, if one is found soon.
    pub fn good_text(&mut self, kind: Kind, things: usize) -> String {
        let mut text = self.whole_text(kind, things);
        for _ in 0..self.below(12) {
            if checked(kind, text.as_bytes()).is_ok() {
                break;
            }
            text = self.whole_text(kind, things);
        }
        text
    }

    // A text to be looked for: mostly one that is not refused.
    pub fn searched_text(&mut self, kind: Kind) -> String {
        let text = self.good_text(kind, 6);
        if self.once_in(16) {
            self.damage(text)
        } else {
            text
        }
    }

    pub fn damage(&mut self, text: String) -> String {
        let mut bytes = text.into_bytes();
        for _ in 0..1 + self.below(2) {
            let c = self.pick(b"0123456789ABCDEFUSDa?()[]{}!:|*-x");
            let at = self.below(bytes.len());
            match self.below(4) {
                0 => bytes.truncate(at),
                1 => bytes[at] = c,
                2 => bytes.insert(at, c),
                _ => drop(bytes.remove(at)),
            }
            if bytes.is_empty() {
                bytes.push(c);
            }
        }
        String::from_utf8(bytes).unwrap()
    }

    pub fn elements(&mut self, kind: Kind, count: usize) -> Vec<u16> {
        let pairs = self.run(kind, count);
        codes(kind, pairs.as_bytes())
    }

    // A stretch that an item matches, if one is found soon.
    pub fn stretch(&mut self, kind: Kind, item: &Item, wide: bool) -> Vec<u16> {
        match item {
            Item::Literal(code) => vec![*code],
            Item::Any => self.elements(kind, 1),
            Item::Group(runs) => runs[self.below(runs.len())].clone(),
            Item::Range { low: run, .. } | Item::Other(run) => {
                let mut stretch = run.clone();
                for _ in 0..8 {
                    stretch = self.elements(kind, run.len());
                    if matches(item, &stretch) {
                        break;
                    }
                }
                stretch
            }
            Item::Gap(m, n) => {
                let most = n.unwrap_or(if wide { m + 300 } else { m + 4 });
                let count = if wide && self.once_in(2) {
                    most
                } else {
                    m + self.below(4) as u64
                };
                self.elements(kind, count.min(most) as usize)
            }
        }
    }

    // Small damage to a reading, at so many places.
    pub fn disturb(&mut self, kind: Kind, reading: &mut Vec<u16>, places: usize) {
        for _ in 0..places {
            let at = self.below(reading.len() + 1);
            let one = self.elements(kind, 1)[0];
            match self.below(3) {
                0 if at < reading.len() => reading[at] = one,
                1 if at < reading.len() => drop(reading.remove(at)),
                _ => reading.insert(at, one),
            }
        }
    }
}

// The rules of pattern texts, by brute force: the grammar and its refusals, fragments, and which readings a text hits. Written
// from the rules alone. Both `oracle.rs` and `streams.rs` stand on it.

#[derive(Clone, Copy, Debug, PartialEq)]
pub enum Kind {
    Byte,
    Mark,
}

#[derive(Clone, Debug, PartialEq)]
pub enum Item {
    Literal(u16),
    Any,
    Group(Vec<Vec<u16>>),
    Range {
        inside: bool,
        low: Vec<u16>,
        high: Vec<u16>,
    },
    Other(Vec<u16>),
    Gap(u64, Option<u64>),
}

// An item and the place of its first character.
pub type Placed = (usize, Item);

// The code of the element that a pair names. A byte's pair is its two hexadecimal digits, its code the value. A mark's pair is
// U0, or S or D with the digit of a band: code 0, 16 plus the band, 32 plus the band.
fn named(kind: Kind, first: u8, second: u8) -> Option<u16> {
    let digit = |c| b"0123456789ABCDEF".iter().position(|d| *d == c);
    match (kind, first, second) {
        (Kind::Byte, ..) => Some((16 * digit(first)? + digit(second)?) as u16),
        (Kind::Mark, b'U', b'0') => Some(0),
        (Kind::Mark, b'S', b'0'..=b'9') => Some(16 + u16::from(second - b'0')),
        (Kind::Mark, b'D', b'0'..=b'9') => Some(32 + u16::from(second - b'0')),
        _ => None,
    }
}

// The grammar, as functions from a place to every place where what they read can end. `far` is how many characters, at the
// most, were read as a part of some text.
struct Grammar<'t> {
    kind: Kind,
    text: &'t [u8],
    far: usize,
}

impl Grammar<'_> {
    fn one(&mut self, at: usize, c: u8) -> Vec<usize> {
        if self.text.get(at) == Some(&c) {
            self.far = self.far.max(at + 1);
            vec![at + 1]
        } else {
            vec![]
        }
    }

    fn word(&mut self, at: usize, word: &str) -> Vec<usize> {
        let mut ends = vec![at];
        for c in word.bytes() {
            ends = ends.into_iter().flat_map(|e| self.one(e, c)).collect();
        }
        ends
    }

    fn pair(&mut self, at: usize) -> Vec<usize> {
        let Some(&first) = self.text.get(at) else {
            return vec![];
        };
        // a pair is of letters and digits
        if (b'0'..=b'z').all(|second| named(self.kind, first, second).is_none()) {
            return vec![];
        }
        self.far = self.far.max(at + 1);
        let Some(&second) = self.text.get(at + 1) else {
            return vec![];
        };
        if named(self.kind, first, second).is_none() {
            return vec![];
        }
        self.far = self.far.max(at + 2);
        vec![at + 2]
    }

    fn run(&mut self, at: usize) -> Vec<usize> {
        let (mut ends, mut all) = (self.pair(at), vec![]);
        while let Some(&end) = ends.first() {
            all.push(end);
            ends = self.pair(end);
        }
        all
    }

    fn then(
        &mut self,
        ends: Vec<usize>,
        next: impl Fn(&mut Self, usize) -> Vec<usize>,
    ) -> Vec<usize> {
        ends.into_iter().flat_map(|e| next(self, e)).collect()
    }

    fn number(&mut self, at: usize) -> Vec<usize> {
        let mut all = vec![];
        for len in 1..=4 {
            match self.text.get(at + len - 1) {
                Some(c) if c.is_ascii_digit() => {
                    self.far = self.far.max(at + len);
                    all.push(at + len);
                }
                _ => break,
            }
        }
        all
    }

    fn thing(&mut self, at: usize) -> Vec<usize> {
        let mut all = self.pair(at);
        all.extend(self.word(at, "??"));
        // a group: a run, then one or more bars with a run, then the end
        let open = self.one(at, b'(');
        let mut runs = self.then(open, |g, e| g.run(e));
        loop {
            let bars = self.then(runs, |g, e| g.one(e, b'|'));
            if bars.is_empty() {
                break;
            }
            runs = self.then(bars, |g, e| g.run(e));
            let closed = self.then(runs.clone(), |g, e| g.one(e, b')'));
            all.extend(closed);
        }
        for open in ["[", "[!"] {
            let ends = self.word(at, open);
            let low = self.then(ends, |g, e| g.run(e));
            if open == "[!" {
                let closed = self.then(low.clone(), |g, e| g.one(e, b']'));
                all.extend(closed);
            }
            let colon = self.then(low, |g, e| g.one(e, b':'));
            let high = self.then(colon, |g, e| g.run(e));
            let closed = self.then(high, |g, e| g.one(e, b']'));
            all.extend(closed);
        }
        all
    }

    fn gap(&mut self, at: usize) -> Vec<usize> {
        let mut all = self.one(at, b'*');
        let open = self.one(at, b'{');
        let least = self.then(open, |g, e| g.number(e));
        let closed = self.then(least.clone(), |g, e| g.one(e, b'}'));
        all.extend(closed);
        let dash = self.then(least, |g, e| g.one(e, b'-'));
        let star = self.then(dash.clone(), |g, e| g.word(e, "*}"));
        all.extend(star);
        let most = self.then(dash, |g, e| g.number(e));
        let closed = self.then(most, |g, e| g.one(e, b'}'));
        all.extend(closed);
        all
    }
}

fn sorted(mut ends: Vec<usize>) -> Vec<usize> {
    ends.sort_unstable();
    ends.dedup();
    ends
}

// The items of a text with their places, or the length of its longest prefix that begins some text.
fn items_of(kind: Kind, text: &[u8]) -> Result<Vec<Placed>, usize> {
    let mut g = Grammar { kind, text, far: 0 };
    let mut items = vec![];
    let mut at = 0;
    let mut after_thing = false;
    while at < text.len() {
        let things = sorted(g.thing(at));
        let gaps = if items.is_empty() {
            vec![]
        } else {
            sorted(g.gap(at))
        };
        // no thing is a part of a longer one from the same place, and no gap begins like a thing
        let ends: Vec<usize> = things.iter().chain(gaps.iter()).copied().collect();
        let [end] = ends[..] else { return Err(g.far) };
        items.push((at, item(kind, &text[at..end])));
        after_thing = !things.is_empty();
        at = end;
    }
    if after_thing {
        Ok(items)
    } else {
        Err(g.far)
    }
}

// The codes that a run of pairs names.
pub fn codes(kind: Kind, run: &[u8]) -> Vec<u16> {
    let code = |pair: &[u8]| named(kind, pair[0], pair[1]).unwrap();
    run.chunks(2).map(code).collect()
}

fn item(kind: Kind, text: &[u8]) -> Item {
    let inner = || &text[1..text.len() - 1];
    let number = |digits: &[u8]| {
        let digits = std::str::from_utf8(digits).unwrap();
        digits.parse::<u64>().unwrap()
    };
    let runs = |runs: &[u8], between: u8| -> Vec<Vec<u16>> {
        let parts = runs.split(|c| *c == between);
        parts.map(|run| codes(kind, run)).collect()
    };
    match text[0] {
        b'?' => Item::Any,
        b'*' => Item::Gap(0, None),
        b'(' => Item::Group(runs(inner(), b'|')),
        b'[' => {
            let inside = text[1] != b'!';
            let bounds = if inside { inner() } else { &inner()[1..] };
            match &runs(bounds, b':')[..] {
                [run] => Item::Other(run.clone()),
                [low, high] => Item::Range {
                    inside,
                    low: low.clone(),
                    high: high.clone(),
                },
                _ => unreachable!(),
            }
        }
        b'{' => {
            let parts: Vec<&[u8]> = inner().split(|c| *c == b'-').collect();
            match parts[..] {
                [n] => Item::Gap(number(n), Some(number(n))),
                [m, b"*"] => Item::Gap(number(m), None),
                [m, n] => Item::Gap(number(m), Some(number(n))),
                _ => unreachable!(),
            }
        }
        _ => Item::Literal(named(kind, text[0], text[1]).unwrap()),
    }
}

// The fragments, each with the row of gaps before it. A text is cut at each row that has a gap without upper end.
pub fn fragments(items: &[Placed]) -> Vec<(Vec<Placed>, Vec<Placed>)> {
    let mut all: Vec<(Vec<Placed>, Vec<Placed>)> = vec![(vec![], vec![])];
    let mut row: Vec<Placed> = vec![];
    for placed in items {
        if let Item::Gap(..) = placed.1 {
            row.push(placed.clone());
            continue;
        }
        if row.iter().any(|(_, i)| matches!(i, Item::Gap(_, None))) {
            all.push((std::mem::take(&mut row), vec![placed.clone()]));
        } else {
            let body = &mut all.last_mut().unwrap().1;
            body.append(&mut row);
            body.push(placed.clone());
        }
    }
    all
}

// The most elements that an item matches, if there is an upper end. A gap counts its n.
pub fn span(item: &Item) -> Option<u64> {
    match item {
        Item::Literal(_) | Item::Any => Some(1),
        Item::Group(runs) => runs.iter().map(Vec::len).max().map(|n| n as u64),
        Item::Range { low, .. } => Some(low.len() as u64),
        Item::Other(run) => Some(run.len() as u64),
        Item::Gap(_, most) => *most,
    }
}

// The number and the place of a text's refusal, if it is refused, or its items. The causes with number 4 are a gap with m above
// n, a range whose runs are unequal or whose first run is not before its second, a ninth fragment, and a fragment of more than
// 1,024 elements; the smallest place counts. Number 5 is a fragment without a literal of its own.
pub fn checked(kind: Kind, text: &[u8]) -> Result<Vec<Placed>, (u8, usize)> {
    let items = items_of(kind, text).map_err(|place| (3, place))?;
    let wrong = |i: &Item| match i {
        Item::Gap(m, Some(n)) => m > n,
        Item::Range { low, high, .. } => low.len() != high.len() || low >= high,
        _ => false,
    };
    let parts = fragments(&items);
    let beyond = items
        .iter()
        .filter(|(_, i)| wrong(i))
        .map(|(place, _)| *place);
    let ninth = parts.iter().skip(8).map(|(_, body)| body[0].0);
    let size = |body: &[Placed]| body.iter().filter_map(|(_, i)| span(i)).sum::<u64>();
    let wide = parts.iter().filter(|(_, body)| size(body) > 1024);
    let wide = wide.map(|(_, body)| body[0].0);
    if let Some(place) = beyond.chain(ninth).chain(wide).min() {
        return Err((4, place));
    }
    let bare = |body: &[Placed]| !body.iter().any(|(_, i)| matches!(i, Item::Literal(_)));
    match parts.iter().find(|(_, body)| bare(body)) {
        Some((_, body)) => Err((5, body[0].0)),
        None => Ok(items),
    }
}

// Whether an item matches a stretch of a reading.
pub fn matches(item: &Item, stretch: &[u16]) -> bool {
    match item {
        Item::Literal(code) => stretch == [*code],
        Item::Any => stretch.len() == 1,
        Item::Group(runs) => runs.iter().any(|run| run[..] == *stretch),
        Item::Range { inside, low, high } => {
            stretch.len() == low.len() && *inside == (low[..] <= *stretch && *stretch <= high[..])
        }
        Item::Other(run) => stretch.len() == run.len() && run[..] != *stretch,
        Item::Gap(m, n) => {
            let len = stretch.len() as u64;
            *m <= len && n.is_none_or(|n| len <= n)
        }
    }
}

// Whether some stretch of a reading, from a start to before an end, is cut in order into what the items match, and counts: with
// the letter B its start lies from lo to hi, with E the number of elements behind it does, with V nothing more is asked.
pub fn hits(items: &[Placed], letter: u8, lo: usize, hi: usize, reading: &[u16]) -> bool {
    let len = reading.len();
    let counts = |n: usize| lo <= n && n <= hi;
    let start = |s: usize| letter != b'B' || counts(s);
    let end = |e: usize| letter != b'E' || counts(len - e);
    // every place where a cut into the items so far can end
    let mut ends: Vec<bool> = (0..=len).map(start).collect();
    for (_, item) in items {
        let mut next = vec![false; len + 1];
        for at in (0..=len).filter(|at| ends[*at]) {
            let far = span(item).map_or(len, |n| len.min(at + n as usize));
            for e in at..=far {
                next[e] |= matches(item, &reading[at..e]);
            }
            // without an upper end, the first place reaches all that a later one does
            if span(item).is_none() {
                break;
            }
        }
        ends = next;
    }
    (0..=len).any(|e| ends[e] && end(e))
}

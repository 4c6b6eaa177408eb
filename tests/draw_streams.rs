// Random streams of records: good ones, damaged ones, and ones that fill the tables.
use crate::catalogue::{kind_of, record_kinds, Catalogue, Sequence, Signature, MOST_BODY};
use crate::draw::Random;
use crate::rules::Kind;

// Labels of formats. Readings are given these too, in upper case or with small damage.
const LABELS: [&str; 9] = [
    "log", "logs", "l", "exe12345", "zip", "0", "a9", "pdf", "exe1234",
];

// A record that is being made: its kind, and its body in fields.
struct Draft {
    kind: u16,
    fields: Vec<Vec<u8>>,
}

impl Draft {
    fn new(kind: u16) -> Self {
        let fields = vec![];
        Draft { kind, fields }
    }

    fn byte(&mut self, byte: usize) {
        self.fields.push(vec![byte as u8]);
    }

    fn two(&mut self, number: u16) {
        self.fields.push(number.to_le_bytes().to_vec());
    }

    fn counted(&mut self, bytes: &[u8]) {
        self.byte(bytes.len());
        self.fields.push(bytes.to_vec());
    }

    fn ids(&mut self, ids: &[u16]) {
        self.byte(ids.len());
        for id in ids {
            self.two(*id);
        }
    }
}

// The stream with a number, of those that a seed gives.
pub fn stream(seed: u64, number: u64) -> Vec<u8> {
    // neighbours get numbers far apart
    let mut state = seed.wrapping_mul(0x9E3779B97F4A7C15).wrapping_add(number);
    for factor in [0xBF58476D1CE4E5B9, 0x94D049BB133111EB] {
        state = (state ^ (state >> 30)).wrapping_mul(factor);
    }
    let mut maker = Maker::new(Random::new(state ^ (state >> 31)));
    maker.make();
    maker.stream
}

struct Maker {
    random: Random,
    kind: Kind,
    stream: Vec<u8>,
    // what stands after the records so far, as long as their lengths fit
    catalogue: Catalogue,
    // signatures and formats get ids below this, or a few great ones
    ids: usize,
    // of a hundred records, how many are damaged, and how many have a length that does not fit
    damaged: usize,
    misfits: usize,
    // how many signatures a format names, and how many formats it outranks: one of these
    named: &'static [usize],
    outranked: &'static [usize],
}

impl Maker {
    fn new(mut random: Random) -> Self {
        random.letters = random.pick(&[2, 2, 3, 3, 4, 7, usize::MAX]);
        let kind = random.pick(&[Kind::Byte, Kind::Byte, Kind::Mark]);
        Maker {
            kind,
            stream: vec![],
            catalogue: Catalogue::new(kind),
            ids: random.pick(&[4, 10, 30, 60, 300]),
            damaged: random.pick(&[0, 0, 5, 15, 40]),
            misfits: random.pick(&[0, 0, 0, 0, 0, 0, 2, 8]),
            named: &[0, 1, 1, 1, 2, 2, 3, 8],
            outranked: random.pick(&[&[0, 0, 1, 1, 2, 8], &[0, 1, 1, 3], &[0]]),
            random,
        }
    }

    fn make(&mut self) {
        match self.random.below(100) {
            0..=3 => self.scraps(),
            4..=8 => self.first_of_any_kind(),
            9..=13 => self.full_of_signatures(),
            14..=18 => self.full_of_fragments(),
            19..=23 => self.full_of_formats(),
            24..=25 => {
                self.full_of_signatures();
                self.full_of_formats();
            }
            26..=38 => self.ranks(),
            _ => self.mixed(),
        }
        if self.random.once_in(30) {
            self.great_body();
        }
        if self.random.once_in(9) {
            let len = self.stream.len();
            let from = self.random.pick(&[0, len.saturating_sub(40)]);
            let kept = from + self.random.below(len - from + 1);
            self.stream.truncate(kept);
        }
    }

    // No input, a few bytes, or many of no meaning.
    fn scraps(&mut self) {
        let count = self.random.pick(&[0, 1, 2, 3, 4, 5, 6, 12, 300]);
        for _ in 0..count {
            let byte = match self.random.below(3) {
                0 => 0,
                1 => self.random.below(8),
                _ => self.random.below(256),
            };
            self.stream.push(byte as u8);
        }
    }

    fn mixed(&mut self) {
        self.signatures(0, 4);
        self.formats(0, 3);
        let most = self.random.pick(&[3, 8, 8, 16, 30]);
        self.some(most);
    }

    fn signatures(&mut self, least: usize, most: usize) {
        for _ in 0..least + self.random.below(most - least + 1) {
            let draft = self.signature();
            self.send(draft);
        }
    }

    fn small_signatures(&mut self, least: usize, most: usize) {
        for _ in 0..least + self.random.below(most - least + 1) {
            let draft = self.small_signature();
            self.send(draft);
        }
    }

    fn formats(&mut self, least: usize, most: usize) {
        for _ in 0..least + self.random.below(most - least + 1) {
            let draft = self.format();
            self.send(draft);
        }
    }

    fn readings(&mut self, least: usize, most: usize) {
        for _ in 0..least + self.random.below(most - least + 1) {
            let draft = self.reading();
            self.send(draft);
        }
    }

    // Any records, up to so many.
    fn some(&mut self, most: usize) {
        for _ in 0..self.random.below(most + 1) {
            let draft = match self.random.below(100) {
                0..=24 => self.signature(),
                25..=46 => self.format(),
                47..=96 => self.reading(),
                _ => self.stray(),
            };
            self.send(draft);
        }
    }

    // The kind of the first record decides, whatever else the record is.
    fn first_of_any_kind(&mut self) {
        let draft = self.stray();
        self.put(draft);
        self.kind = kind_of(&self.stream);
        self.catalogue = Catalogue::new(self.kind);
        self.catalogue.answer(&self.stream);
        self.mixed();
    }

    // Tables fill up only where few records are refused.
    fn leave_room(&mut self) {
        self.damaged = self.damaged.min(5);
        self.ids = self.ids.max(60);
    }

    fn full_of_signatures(&mut self) {
        self.leave_room();
        self.signatures(0, 2);
        for _ in 0..60 {
            if self.catalogue.signatures.len() == 24 {
                break;
            }
            self.small_signatures(1, 1);
        }
        self.small_signatures(0, 3);
        self.formats(1, 3);
        self.some(8);
    }

    fn full_of_fragments(&mut self) {
        self.leave_room();
        let most = self.random.pick(&[1, 3, 8, 8]);
        // just full, short of it by one, full of signatures too, or as it comes
        let all: Vec<Vec<usize>> = match self.random.below(5) {
            0 => vec![vec![8; 4]; 3],
            1 => vec![vec![8; 4], vec![8, 8, 8, 7], vec![8; 4]],
            2 => vec![vec![4]; 24],
            _ => (0..26).map(|_| self.counts(4, most)).collect(),
        };
        for counts in all {
            let texts: Vec<_> = counts.iter().map(|n| self.text_in_parts(*n)).collect();
            // one that is refused behind good sequences must leave nothing in the table
            if self.random.once_in(4) {
                let mut texts = texts.clone();
                texts.pop();
                texts.push(self.bare_text());
                let draft = self.signature_of(texts);
                self.send(draft);
            }
            let draft = self.signature_of(texts);
            self.send(draft);
        }
        self.small_signatures(0, 3);
        self.formats(1, 3);
        self.some(8);
    }

    fn counts(&mut self, len: usize, most: usize) -> Vec<usize> {
        (0..len).map(|_| 1 + self.random.below(most)).collect()
    }

    fn full_of_formats(&mut self) {
        self.leave_room();
        if self.random.once_in(4) {
            // all formats hit together
            self.small_signatures(1, 1);
            self.named = &[1];
            self.outranked = &[0];
        } else {
            self.small_signatures(0, 3);
        }
        for _ in 0..90 {
            if self.catalogue.formats.len() == 48 {
                break;
            }
            self.formats(1, 1);
        }
        self.formats(0, 3);
        self.readings(0, 3);
        self.some(12);
    }

    // Formats that outrank each other, of few signatures that often hit.
    fn ranks(&mut self) {
        self.random.letters = 2;
        self.damaged = self.damaged.min(5);
        self.small_signatures(1, 3);
        self.formats(2, 9);
        self.readings(1, 4);
        self.some(4);
    }

    // A body at the limit, or above it, whole or not.
    fn great_body(&mut self) {
        let len = match self.random.below(8) {
            0..=2 => 4096,
            3 | 4 => 4097,
            5 => 4097 + self.random.below(61439),
            _ => self.random.pick(&[4098, 8192, 65535]),
        };
        let kind = self.random.pick(&record_kinds(self.kind));
        let reading = self.elements(len - 1);
        let mut body = vec![0];
        body.extend(reading.iter().map(|code| self.packed(*code)));
        body.truncate(len - self.random.pick(&[0, 0, 0, 1, len - 20, len]));
        self.stream.extend((len as u16).to_le_bytes());
        self.stream.extend(kind.to_le_bytes());
        self.stream.extend(body);
        self.some(3);
    }

    // An id that does not stand, or seldom any.
    fn id(&mut self, stands: fn(&Catalogue, u16) -> bool) -> u16 {
        let mut id = 0;
        for _ in 0..self.random.pick(&[1, 8, 8, 8]) {
            id = match self.random.below(12) {
                0 => self.random.pick(&[0, 255, 256, 258, 65534, 65535]),
                _ => self.random.below(self.ids) as u16,
            };
            if !stands(&self.catalogue, id) {
                break;
            }
        }
        id
    }

    // Some of the ids below a bound, in rising order: as many as one of the limits says or seldom one too many, and seldom some
    // that may not stand.
    fn some_of(&mut self, ids: Vec<u16>, bound: usize, limits: &[usize]) -> Vec<u16> {
        let mut ids = ids;
        ids.retain(|id| usize::from(*id) < bound);
        let most = match self.random.below(40) {
            0 => 9,
            _ => self.random.pick(limits),
        };
        while ids.len() > most {
            ids.remove(self.random.below(ids.len()));
        }
        if self.random.once_in(16) {
            for _ in 0..1 + self.random.below(3) {
                ids.push(self.random.below(bound.clamp(1, self.ids)) as u16);
            }
        }
        ids.sort_unstable();
        ids.dedup();
        ids
    }

    fn elements(&mut self, count: usize) -> Vec<u16> {
        self.random.elements(self.kind, count)
    }

    // A text that is accepted and short.
    fn small_text(&mut self) -> Vec<u8> {
        let len = 1 + self.random.below(2);
        self.random.run(self.kind, len).into_bytes()
    }

    // A text of so many fragments, most of them short.
    fn text_in_parts(&mut self, count: usize) -> Vec<u8> {
        let mut text = String::new();
        for k in 0..count {
            if k > 0 {
                text += self
                    .random
                    .pick(&["*", "*", "{2-*}", "*{1}", "{0-3}*", "**"]);
            }
            let len = self.random.pick(&[1, 1, 1, 2]);
            text += &self.random.run(self.kind, len);
        }
        text.into_bytes()
    }

    // Two runs and a gap: beside the greatest span, or a great one without upper end.
    fn wide_text(&mut self) -> Vec<u8> {
        let lens = [1, 2].map(|n| n + self.random.below(3));
        let [first, last] = lens.map(|n| self.random.run(self.kind, n));
        let most = 1015 + self.random.below(12);
        let least = self.random.pick(&[0, 1, most, most - 3]);
        let before = self.random.pick(&["", "", "??", "*", "{2}*"]);
        let gap = match self.random.below(6) {
            0 => format!("{{{most}-*}}"),
            1 => format!("*{{{}}}", self.random.pick(&[1025, 2000, 3000, 9999])),
            _ => format!("{before}{{{least}-{most}}}"),
        };
        format!("{first}{gap}{last}").into_bytes()
    }

    // Several faults, most of them with number 4.
    fn faulty_text(&mut self) -> Vec<u8> {
        let mut text = String::new();
        for _ in 0..1 + self.random.below(11) {
            text += &self.random.run(self.kind, 1);
            let [one, other] = [0, 1].map(|_| self.random.run(self.kind, 1));
            text += &match self.random.below(8) {
                0 => self.random.pick(&["{5-4}", "*{7-2}", "{0-0}"]).into(),
                1 => self.random.pick(&["{1020}", "{0-1022}", "{9999}"]).into(),
                2 => format!("[{one}:{other}]"),
                3 => format!("[!{one}:{other}{one}]"),
                4 if self.random.once_in(4) => "{00001}".into(),
                _ => "*".into(),
            };
        }
        text += &self.random.run(self.kind, 1);
        text.into_bytes()
    }

    // Things that are no literals, or few.
    fn bare_text(&mut self) -> Vec<u8> {
        let mut text = String::new();
        for k in 0..1 + self.random.below(4) {
            if k > 0 {
                text += self.random.pick(&["", "", "*", "{1}", "{1-2}"]);
            }
            let thing = self.random.thing(self.kind);
            let is_bare = thing.starts_with(['?', '(', '[']);
            text += if is_bare { &thing } else { "??" };
        }
        text.into_bytes()
    }

    // About as long as a text may be.
    fn long_text(&mut self) -> Vec<u8> {
        let mut text = match self.random.below(3) {
            0 => self.random.run(self.kind, 80),
            1 => self.random.whole_text(self.kind, 90),
            _ => self.random.whole_text(self.kind, 9),
        };
        let pairs = 100usize.saturating_sub(text.len() / 2);
        text += &self.random.run(self.kind, pairs);
        let mut text = text.into_bytes();
        text.truncate(199 + self.random.below(4));
        text
    }

    // A text of any sort. A record can hold no more than 255 characters.
    fn text(&mut self) -> Vec<u8> {
        let kind = self.kind;
        let mut text = match self.random.below(100) {
            0..=39 => self.random.good_text(kind, 4).into_bytes(),
            40..=59 => self.small_text(),
            60..=73 => self.random.searched_text(kind).into_bytes(),
            74..=83 => self.random.text(kind).into_bytes(),
            84..=88 => {
                let count = 1 + self.random.below(10);
                self.text_in_parts(count)
            }
            89..=91 => self.wide_text(),
            92 | 93 => self.faulty_text(),
            94 | 95 => self.bare_text(),
            96..=98 => self.long_text(),
            _ => vec![],
        };
        if self.random.once_in(60) {
            let at = self.random.below(text.len() + 1);
            text.insert(at, self.random.below(256) as u8);
        }
        text.truncate(255);
        text
    }

    fn signature(&mut self) -> Draft {
        let count = match self.random.below(40) {
            0 => self.random.pick(&[0, 5]),
            _ => self.random.pick(&[1, 1, 1, 2, 2, 3, 4]),
        };
        let texts = (0..count).map(|_| self.text()).collect();
        self.signature_of(texts)
    }

    // One of a single short text.
    fn small_signature(&mut self) -> Draft {
        let text = self.small_text();
        self.signature_of(vec![text])
    }

    fn signature_of(&mut self, texts: Vec<Vec<u8>>) -> Draft {
        let [kind, ..] = record_kinds(self.kind);
        let mut draft = Draft::new(kind);
        draft.two(self.id(Catalogue::has_signature));
        draft.byte(self.random.below(2));
        draft.byte(texts.len());
        for text in &texts {
            let letter = match self.random.below(100) {
                0 => self.random.pick(b"bevACDFUW"),
                _ => self.random.pick(b"BEVVV"),
            };
            let (lo, hi) = self.offsets(letter);
            draft.byte(letter.into());
            draft.two(lo);
            draft.two(hi);
            draft.counted(text);
        }
        draft
    }

    fn offsets(&mut self, letter: u8) -> (u16, u16) {
        let (near, more) = (self.random.below(4), self.random.below(4));
        let far = self.random.pick(&[255, 256, 257, 511, 1100]);
        let (lo, hi) = match self.random.below(40) {
            // not allowed, or not with every letter
            0 => (near + more, near),
            1 => (0, near),
            _ if letter == b'V' => (0, 0),
            2..=10 => (0, 65535),
            11 => (far, far + more),
            12 => (256 * near, 256 * (near + more) + more),
            13 => (near, far),
            14 => (65535, 65535),
            15..=18 => (0, 0),
            _ => (near, near + more),
        };
        (lo as u16, hi as u16)
    }

    fn format(&mut self) -> Draft {
        let [_, kind, _] = record_kinds(self.kind);
        let id = self.id(Catalogue::has_format);
        let mut draft = Draft::new(kind);
        draft.two(id);
        let name = self.name();
        draft.counted(&name);
        let ids = self.catalogue.signatures.iter().map(|s| s.id).collect();
        let signatures = self.some_of(ids, 65536, self.named);
        draft.ids(&signatures);
        let ids = self.catalogue.formats.iter().map(|f| f.id).collect();
        let outranked = self.some_of(ids, id.into(), self.outranked);
        draft.ids(&outranked);
        let count = match self.random.below(40) {
            0 => 5,
            _ => self.random.pick(&[0, 0, 0, 1, 1, 2, 3, 4]),
        };
        draft.byte(count);
        for _ in 0..count {
            let label = self.format_label();
            draft.counted(&label);
        }
        draft
    }

    fn name(&mut self) -> Vec<u8> {
        let len = match self.random.below(40) {
            0 => 41,
            _ => self.random.pick(&[0, 0, 1, 3, 3, 8, 39, 40]),
        };
        let any = |_| 0x20 + self.random.below(0x5F) as u8;
        let mut name: Vec<u8> = (0..len).map(any).collect();
        if let [.., last] = &mut name[..] {
            *last = match self.random.below(60) {
                0 => self.random.pick(&[0x1F, 0x7F, 0x80, 0]),
                _ => self.random.pick(&[*last, *last, 0x20, 0x7E]),
            };
        }
        name
    }

    fn format_label(&mut self) -> Vec<u8> {
        let mut label = self.random.pick(&LABELS).as_bytes().to_vec();
        match self.random.below(120) {
            0 => label.clear(),
            1 => label.resize(9, b'z'),
            2 | 3 => label[0] = self.random.pick(b"/:`{AZaz09"),
            _ => {}
        }
        label
    }

    // A reading's label: one of a format, as it is, in upper case or with damage, or none.
    fn label(&mut self) -> Vec<u8> {
        let all = self.catalogue.formats.iter().flat_map(|f| f.labels.clone());
        let mut all: Vec<Vec<u8>> = all.collect();
        all.extend(LABELS.map(|label| label.as_bytes().to_vec()));
        let mut label = all.swap_remove(self.random.below(all.len()));
        match self.random.below(10) {
            0..=2 => label = vec![],
            3..=4 => label.make_ascii_uppercase(),
            5 => {
                // upper case here and there, and no letters at times
                for c in &mut label {
                    *c ^= self.random.pick(&[0, 0x20]);
                }
            }
            6 => {
                let at = self.random.below(label.len());
                label[at] = match self.random.below(3) {
                    0 => self.random.pick(b"@[`{/:lL"),
                    _ => self.random.below(256) as u8,
                };
            }
            _ => {}
        }
        label
    }

    fn reading(&mut self) -> Draft {
        let [.., kind] = record_kinds(self.kind);
        let mut draft = Draft::new(kind);
        let label = self.label();
        let mut reading = match self.random.below(20) {
            0 => vec![],
            1..=4 => {
                let count = self.random.below(24);
                self.elements(count)
            }
            _ => self.aimed_reading(),
        };
        let most = MOST_BODY - 1 - label.len();
        if self.random.once_in(60) {
            // among many others, at the front or at the back
            let before = self.random.below(most);
            let mut long = self.elements(most);
            let at = self.random.pick(&[0, before, most]);
            long.splice(at..at, reading);
            let from = long.len() - most;
            reading = long.split_off(self.random.pick(&[0, from]));
        }
        reading.truncate(most);
        let packed: Vec<u8> = reading.iter().map(|code| self.packed(*code)).collect();
        draft.counted(&label);
        draft.fields.push(packed);
        draft
    }

    // A mark without tyres is packed in any byte that is none of the other marks'.
    fn packed(&mut self, code: u16) -> u8 {
        let unread = [0, 1, 0x0F, 0x1A, 0x1F, 0x2A, 0x30, 0x41, 0x90, 0xFF];
        match (self.kind, code) {
            (Kind::Mark, 0) => self.random.pick(&unread),
            _ => code as u8,
        }
    }

    // A reading that often hits a signature that a format names.
    fn aimed_reading(&mut self) -> Vec<u16> {
        let named = self.catalogue.formats.iter().flat_map(|f| &f.signatures);
        let mut named: Vec<u16> = named.copied().collect();
        if named.is_empty() || self.random.once_in(20) {
            named = self.catalogue.signatures.iter().map(|s| s.id).collect();
        }
        if named.is_empty() {
            return self.elements(5);
        }
        let id = self.random.pick(&named);
        let signature = self.catalogue.signatures.iter().find(|s| s.id == id);
        let signature = signature.unwrap().clone();
        let mut reading = self.hit_reading(&signature);
        let places = self.random.pick(&[0, 0, 0, 0, 0, 1, 2]);
        self.random.disturb(self.kind, &mut reading, places);
        reading
    }

    // A stretch for each sequence: the first of those from the front at its offset from the front, the first of those from the
    // back at its offset from the back, all others between them.
    fn hit_reading(&mut self, signature: &Signature) -> Vec<u16> {
        let wide = self.random.once_in(16);
        let (mut front, mut middle, mut back) = (vec![], vec![], vec![]);
        for sequence in &signature.sequences {
            let mut stretch = vec![];
            for (_, item) in &sequence.items {
                stretch.extend(self.random.stretch(self.kind, item, wide));
            }
            let apart = self.distance(sequence, wide);
            let apart = self.elements(apart);
            match sequence.letter {
                b'B' if front.is_empty() => front = [apart, stretch].concat(),
                b'E' if back.is_empty() => back = [stretch, apart].concat(),
                _ => {
                    let between = self.random.pick(&[0, 0, 1, 4]);
                    middle.extend(self.elements(between));
                    middle.extend(stretch);
                }
            }
        }
        if signature.sequences.len() == 1 {
            let around = [0, 1].map(|_| self.random.pick(&[0, 0, 1, 3]));
            match signature.sequences[0].letter {
                b'B' => back = self.elements(around[0]),
                b'E' => front = self.elements(around[0]),
                _ => [front, back] = around.map(|n| self.elements(n)),
            }
        }
        [front, middle, back].concat()
    }

    // A number of elements that a sequence's offsets allow, at times just out of reach.
    fn distance(&mut self, sequence: &Sequence, wide: bool) -> usize {
        let more = if wide { 1200 } else { 5 };
        let (lo, hi) = (sequence.lo, sequence.hi.min(sequence.lo + more));
        let between = lo + self.random.below(hi - lo + 1);
        let distance = self.random.pick(&[lo, hi, between, between]);
        let distance = match self.random.below(12) {
            0 => distance + 1,
            1 => distance.saturating_sub(1),
            _ => distance,
        };
        distance.min(3000)
    }

    // A record of any kind: with a good body of some kind, or with a few bytes.
    fn stray(&mut self) -> Draft {
        let any = [0, 7, 8, 9, 255, 256, 257, 258, 259, 261, 262, 512, 65535];
        let kind = match self.random.below(2) {
            0 => self.random.pick(&any),
            _ => self.random.below(7) as u16,
        };
        let own = self.kind;
        self.kind = self.random.pick(&[Kind::Byte, Kind::Mark]);
        let mut draft = match self.random.below(6) {
            0 => self.signature(),
            1 => self.format(),
            2 => self.reading(),
            _ => Draft::new(kind),
        };
        self.kind = own;
        draft.kind = kind;
        if draft.fields.is_empty() {
            for _ in 0..self.random.below(8) {
                draft.byte(self.random.below(256));
            }
        }
        draft
    }

    fn send(&mut self, mut draft: Draft) {
        if self.random.below(100) < self.damaged {
            for _ in 0..self.random.pick(&[1, 1, 1, 2, 3]) {
                self.damage(&mut draft);
            }
        }
        self.put(draft);
    }

    fn put(&mut self, draft: Draft) {
        let body = draft.fields.concat();
        let mut record = (body.len() as u16).to_le_bytes().to_vec();
        record.extend(draft.kind.to_le_bytes());
        record.extend(body);
        if self.random.below(100) < self.misfits {
            let at = self.random.pick(&[0, 0, 0, 1]);
            let other = self.random.pick(&[1, 2, 4, 255, 254, 252, 16, 128]);
            record[at] = record[at].wrapping_add(other);
        }
        self.catalogue.answer(&record);
        self.stream.extend(record);
    }

    // Damages one field, or what stands around it.
    fn damage(&mut self, draft: &mut Draft) {
        let count = draft.fields.len();
        if count == 0 {
            return draft.byte(self.random.below(256));
        }
        let at = self.random.below(count);
        let len = draft.fields[at].len();
        match self.random.below(24) {
            0..=9 if len > 0 => {
                let byte = self.random.below(len);
                draft.fields[at][byte] = self.other_byte(draft.fields[at][byte]);
            }
            10..=14 => {
                // the record ends in this field
                draft.fields[at].truncate(self.random.below(len + 1));
                draft.fields.truncate(at + 1);
            }
            15 => drop(draft.fields.remove(at)),
            16 => draft.fields.insert(at, draft.fields[at].clone()),
            17 if at + 1 < count => draft.fields.swap(at, at + 1),
            18 if at + 2 < count => draft.fields.swap(at, at + 2),
            19 => draft.fields[at].reverse(),
            20 => {
                let to = self.random.below(len + 1);
                draft.fields[at].insert(to, self.random.below(256) as u8);
            }
            21 => draft.kind = self.random.below(8) as u16,
            _ => {
                for _ in 0..1 + self.random.below(3) {
                    draft.byte(self.random.below(256));
                }
            }
        }
    }

    // What a byte is damaged to: often a value beside a limit.
    fn other_byte(&mut self, byte: u8) -> u8 {
        let counts = [0, 1, 2, 3, 4, 5, 7, 8, 9, 39, 40, 41, 199, 200, 201, 255];
        match self.random.below(7) {
            0 => self.random.below(256) as u8,
            1 => byte.wrapping_add(1),
            2 => byte.wrapping_sub(1),
            3 => self.random.pick(b"BEVbev"),
            4 => self.random.pick(b"\x1F\x20\x7E\x7F`az{/09:AZ"),
            _ => self.random.pick(&counts),
        }
    }
}

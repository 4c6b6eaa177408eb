// The rules of records, of a catalogue and of its reports, by brute force, and the lines that `classify` prints for a stream of
// records. Written from the rules alone.
use crate::rules::{checked, fragments, hits, Kind, Placed};

// What stands at the most.
const MOST_SIGNATURES: usize = 24;
const MOST_FRAGMENTS: usize = 96;
const MOST_FORMATS: usize = 48;
// A body of more bytes ends the program.
pub const MOST_BODY: usize = 4096;

// The kinds of records for signatures, formats and readings.
pub fn record_kinds(kind: Kind) -> [u16; 3] {
    match kind {
        Kind::Byte => [1, 3, 5],
        Kind::Mark => [2, 4, 6],
    }
}

#[derive(Clone, Copy, Debug, PartialEq)]
pub struct Refusal {
    number: u8,
    sequence: usize,
    place: usize,
}

fn refused<T>(number: u8, sequence: usize, place: usize) -> Result<T, Refusal> {
    Err(Refusal {
        number,
        sequence,
        place,
    })
}

// The fields of a record, taken one by one from the front. A field that is cut off, or holds a value that is not allowed, is
// refused with number 1 at its first byte.
struct Fields<'r> {
    record: &'r [u8],
    at: usize,
}

impl<'r> Fields<'r> {
    fn field(&mut self, len: usize, allowed: impl Fn(&[u8]) -> bool) -> Result<&'r [u8], Refusal> {
        match self.record.get(self.at..self.at + len) {
            Some(field) if allowed(field) => {
                self.at += len;
                Ok(field)
            }
            _ => refused(1, 0, self.at),
        }
    }

    fn byte(&mut self, allowed: impl Fn(u8) -> bool) -> Result<u8, Refusal> {
        let field = self.field(1, |f| allowed(f[0]))?;
        Ok(field[0])
    }

    // Two bytes, the less significant one first.
    fn two(&mut self, allowed: impl Fn(u16) -> bool) -> Result<u16, Refusal> {
        let number = |f: &[u8]| u16::from(f[0]) + 256 * u16::from(f[1]);
        self.field(2, |f| allowed(number(f))).map(number)
    }

    // A count and so many bytes.
    fn counted(
        &mut self,
        count: impl Fn(u8) -> bool,
        each: impl Fn(&u8) -> bool,
    ) -> Result<&'r [u8], Refusal> {
        let len = self.byte(count)?;
        self.field(len.into(), |f| f.iter().all(&each))
    }

    // A count and so many ids, which rise strictly.
    fn ids(&mut self, allowed: impl Fn(u16) -> bool) -> Result<Vec<u16>, Refusal> {
        let count = self.byte(|n| n <= 8)?;
        let mut ids: Vec<u16> = vec![];
        for _ in 0..count {
            let last = ids.last().copied();
            ids.push(self.two(|id| last.is_none_or(|last| last < id) && allowed(id))?);
        }
        Ok(ids)
    }

    // The length and the kind that a record begins with. The length is that of what follows them.
    fn head(record: &'r [u8], kind: impl Fn(u16) -> bool) -> Result<(Self, u16), Refusal> {
        let mut fields = Fields { record, at: 0 };
        fields.two(|len| usize::from(len) == record.len().saturating_sub(4))?;
        let kind = fields.two(kind)?;
        Ok((fields, kind))
    }

    fn end(&self) -> Result<(), Refusal> {
        if self.at < self.record.len() {
            return refused(1, 0, self.at);
        }
        Ok(())
    }
}

// The fields of a sequence in a record.
struct SequenceFields<'r> {
    letter: u8,
    lo: u16,
    hi: u16,
    text: &'r [u8],
}

impl<'r> SequenceFields<'r> {
    fn read(fields: &mut Fields<'r>) -> Result<Self, Refusal> {
        let letter = fields.byte(|c| b"BEV".contains(&c))?;
        // both offsets of V are 0
        let lo = fields.two(|lo| letter != b'V' || lo == 0)?;
        let hi = fields.two(|hi| lo <= hi && (letter != b'V' || hi == 0))?;
        let text = fields.counted(|n| (1..=200).contains(&n), |_| true)?;
        Ok(SequenceFields {
            letter,
            lo,
            hi,
            text,
        })
    }

    // The sequence, or the refusal of its text, with its number.
    fn checked(&self, kind: Kind, number: usize) -> Result<Sequence, Refusal> {
        match checked(kind, self.text) {
            Ok(items) => Ok(Sequence {
                letter: self.letter,
                lo: self.lo.into(),
                hi: self.hi.into(),
                items,
            }),
            Err((cause, place)) => refused(cause, number, place),
        }
    }
}

#[derive(Clone)]
pub struct Sequence {
    pub letter: u8,
    pub lo: usize,
    pub hi: usize,
    pub items: Vec<Placed>,
}

#[derive(Clone)]
pub struct Signature {
    pub id: u16,
    specific: bool,
    pub sequences: Vec<Sequence>,
}

impl Signature {
    fn fragments(&self) -> usize {
        let count = |s: &Sequence| fragments(&s.items).len();
        self.sequences.iter().map(count).sum()
    }

    // A signature hits when all its sequences do.
    fn hits(&self, reading: &[u16]) -> bool {
        let hit = |s: &Sequence| hits(&s.items, s.letter, s.lo, s.hi, reading);
        self.sequences.iter().all(hit)
    }
}

pub struct Format {
    pub id: u16,
    pub signatures: Vec<u16>,
    outranked: Vec<u16>,
    pub labels: Vec<Vec<u8>>,
}

impl Format {
    // Whether one of its labels equals the given one, A to Z read as a to z.
    fn is_labelled(&self, label: &[u8]) -> bool {
        self.labels.contains(&label.to_ascii_lowercase())
    }
}

// A format in a report, its status, and whether it is warned that its labels are others.
struct Hit {
    id: u16,
    status: &'static str,
    mismatch: bool,
}

// What stands.
pub struct Catalogue {
    pub kind: Kind,
    pub signatures: Vec<Signature>,
    pub formats: Vec<Format>,
}

impl Catalogue {
    pub fn new(kind: Kind) -> Self {
        Catalogue {
            kind,
            signatures: vec![],
            formats: vec![],
        }
    }

    pub fn has_signature(&self, id: u16) -> bool {
        self.signatures.iter().any(|s| s.id == id)
    }

    pub fn has_format(&self, id: u16) -> bool {
        self.formats.iter().any(|f| f.id == id)
    }

    fn enter(&mut self, record: &[u8]) -> Result<String, Refusal> {
        let [signature, format, _] = record_kinds(self.kind);
        let (fields, kind) = Fields::head(record, |kind| kind == signature || kind == format)?;
        if kind == signature {
            let id = self.enter_signature(fields)?;
            Ok(format!("signature {id} entered\n"))
        } else {
            let id = self.enter_format(fields)?;
            Ok(format!("format {id} entered\n"))
        }
    }

    fn enter_signature(&mut self, mut fields: Fields) -> Result<u16, Refusal> {
        let id = fields.two(|_| true)?;
        let specific = fields.byte(|n| n <= 1)? == 1;
        let count = fields.byte(|n| (1..=4).contains(&n))?;
        let mut read = vec![];
        for _ in 0..count {
            read.push(SequenceFields::read(&mut fields)?);
        }
        fields.end()?;
        if self.has_signature(id) {
            return refused(2, 0, id.into());
        }
        let mut sequences = vec![];
        for (k, sequence) in read.iter().enumerate() {
            sequences.push(sequence.checked(self.kind, k + 1)?);
        }
        let new = Signature {
            id,
            specific,
            sequences,
        };
        let standing: usize = self.signatures.iter().map(Signature::fragments).sum();
        if self.signatures.len() == MOST_SIGNATURES {
            return refused(8, 0, 1);
        }
        if standing + new.fragments() > MOST_FRAGMENTS {
            return refused(8, 0, 2);
        }
        self.signatures.push(new);
        Ok(id)
    }

    fn enter_format(&mut self, mut fields: Fields) -> Result<u16, Refusal> {
        let id = fields.two(|_| true)?;
        fields.counted(|n| n <= 40, |c| (0x20..=0x7E).contains(c))?;
        let signatures = fields.ids(|_| true)?;
        let outranked = fields.ids(|other| other < id)?;
        let count = fields.byte(|n| n <= 4)?;
        let mut labels = vec![];
        for _ in 0..count {
            let allowed = |c: &u8| c.is_ascii_lowercase() || c.is_ascii_digit();
            labels.push(fields.counted(|n| (1..=8).contains(&n), allowed)?.to_vec());
        }
        fields.end()?;
        if self.has_format(id) {
            return refused(2, 0, id.into());
        }
        if let Some(absent) = signatures.iter().find(|id| !self.has_signature(**id)) {
            return refused(6, 0, (*absent).into());
        }
        if let Some(absent) = outranked.iter().find(|id| !self.has_format(**id)) {
            return refused(6, 0, (*absent).into());
        }
        if self.formats.len() == MOST_FORMATS {
            return refused(8, 0, 3);
        }
        self.formats.push(Format {
            id,
            signatures,
            outranked,
            labels,
        });
        Ok(id)
    }

    // The formats of which a signature hits, and whether a specific one does.
    fn hit_formats(&self, reading: &[u16]) -> Vec<(&Format, bool)> {
        let is_named = |s: &&Signature| self.formats.iter().any(|f| f.signatures.contains(&s.id));
        let hit: Vec<&Signature> = self
            .signatures
            .iter()
            .filter(is_named)
            .filter(|s| s.hits(reading))
            .collect();
        let mut formats = vec![];
        for format in &self.formats {
            let mut own = hit.iter().filter(|s| format.signatures.contains(&s.id));
            if own.clone().next().is_some() {
                formats.push((format, own.any(|s| s.specific)));
            }
        }
        formats
    }

    // The report's status and its formats, by rising id.
    fn report(&self, reading: &[u16], label: &[u8]) -> (&'static str, Vec<Hit>) {
        let hit = self.hit_formats(reading);
        // a format that is struck itself strikes others all the same
        let is_struck = |id| hit.iter().any(|(other, _)| other.outranked.contains(&id));
        let mut listed = vec![];
        for (format, is_specific) in &hit {
            if !is_struck(format.id) {
                listed.push(Hit {
                    id: format.id,
                    status: if *is_specific { "specific" } else { "generic" },
                    mismatch: !format.labels.is_empty() && !format.is_labelled(label),
                });
            }
        }
        let labelled = self.formats.iter().filter(|f| f.is_labelled(label));
        let tentative = |f: &Format| Hit {
            id: f.id,
            status: "tentative",
            mismatch: false,
        };
        if hit.is_empty() {
            listed = labelled.map(tentative).collect();
        }
        listed.sort_by_key(|hit| hit.id);
        let status = match (hit.is_empty(), listed.is_empty()) {
            (false, _) => "positive",
            (true, false) => "tentative",
            (true, true) => "negative",
        };
        (status, listed)
    }

    fn identify(&self, record: &[u8]) -> Result<String, Refusal> {
        let (mut fields, _) = Fields::head(record, |_| true)?;
        let label = fields.counted(|n| n <= 8, |_| true)?;
        let elements = &record[fields.at..];
        let reading: Vec<u16> = elements.iter().map(|b| element(self.kind, *b)).collect();
        let (status, listed) = self.report(&reading, label);
        let mut lines = format!("{status} {}\n", listed.len());
        for hit in listed {
            let warning = if hit.mismatch { " mismatch" } else { "" };
            lines += &format!("{} {}{warning}\n", hit.id, hit.status);
        }
        Ok(lines)
    }

    // The lines for a record: one of the reading kind is a reading, every other is entered.
    pub fn answer(&mut self, record: &[u8]) -> String {
        let [.., reading] = record_kinds(self.kind);
        let is_reading = record.get(2..4) == Some(&reading.to_le_bytes()[..]);
        let answer = if is_reading {
            self.identify(record)
        } else {
            self.enter(record)
        };
        answer.unwrap_or_else(|r| format!("refused {} {} {}\n", r.number, r.sequence, r.place))
    }
}

// The code of the element that a byte of a reading's record stands for: a byte is itself, and a mark is packed as S0 to S9 in 10
// to 19, D0 to D9 in 20 to 29, and U0 in all others.
fn element(kind: Kind, byte: u8) -> u16 {
    match (kind, byte) {
        (Kind::Byte, _) | (Kind::Mark, 0x10..=0x19 | 0x20..=0x29) => byte.into(),
        _ => 0,
    }
}

// The first record of a stream, as its length says or as the stream's end cuts it, and the rest. None where its length says a
// body that ends the program.
pub fn first_record(stream: &[u8]) -> Option<(&[u8], &[u8])> {
    let body = match stream {
        [low, high, ..] => usize::from(*low) + 256 * usize::from(*high),
        _ => 0,
    };
    (body <= MOST_BODY).then(|| stream.split_at(stream.len().min(4 + body)))
}

// The kind of a stream's catalogue: the kind of the first record decides, odd or even. If it has ended before, that of bytes.
pub fn kind_of(stream: &[u8]) -> Kind {
    match stream {
        [_, _, low, _, ..] if low % 2 == 0 => Kind::Mark,
        _ => Kind::Byte,
    }
}

// What `classify` prints for a stream.
pub fn answers(stream: &[u8]) -> String {
    let mut catalogue = Catalogue::new(kind_of(stream));
    let mut lines = String::new();
    let mut rest = stream;
    while !rest.is_empty() {
        let Some((record, behind)) = first_record(rest) else {
            lines += "refused 1 0 0\n";
            break;
        };
        lines += &catalogue.answer(record);
        rest = behind;
    }
    lines
}

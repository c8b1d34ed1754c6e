//! Sheets under construction, and where their fields stand.

/// The most features that a path has.
pub const LONGEST_PATH: usize = 8;

/// A list of up to so many features.
#[derive(Clone, Copy)]
pub struct Path {
    places: [u16; LONGEST_PATH],
    length: usize,
}

/// One statement about a subject, or one question; a path is only asked.
#[derive(Clone, Copy)]
pub enum Said {
    Ordered(usize, usize),
    Compatible(usize, usize),
    Selected(usize, u16, usize),
    Labelled(u16, usize),
    Reached(usize, Path),
}

/// A record or a question: a map, a subject, and the fields by rising bit.
#[derive(Clone, Default)]
pub struct Item {
    pub subject: usize,
    pub target: Option<usize>,
    pub partner: Option<usize>,
    pub selection: Option<(u16, usize)>,
    pub label: Option<u16>,
    pub path: Option<Path>,
}

/// What a field is, as damage and the tally name it.
#[derive(Clone, Copy, PartialEq, Eq, PartialOrd, Ord)]
pub enum Place {
    HeaderMap,
    VariableCount,
    RecordCount,
    QuestionCount,
    RecordMap,
    RecordSubject,
    RecordTarget,
    RecordPartner,
    RecordFeature,
    RecordChild,
    RecordLabel,
    QuestionMap,
    QuestionSubject,
    QuestionTarget,
    QuestionPartner,
    QuestionFeature,
    QuestionChild,
    QuestionLabel,
    PathCount,
    PathFeature,
    Behind,
}

#[derive(Clone, Copy)]
pub struct Field {
    pub place: Place,
    pub offset: usize,
    pub length: usize,
}

#[derive(Clone, Default)]
pub struct Sheet {
    pub n: usize,
    pub records: Vec<Item>,
    pub questions: Vec<Item>,
    /// Counts that are 0 may be left out of the header.
    pub leave_out_zeros: bool,
}

impl Path {
    pub fn of(features: &[u16]) -> Path {
        let mut places = [0; LONGEST_PATH];
        places[..features.len()].copy_from_slice(features);
        Path { places, length: features.len() }
    }

    pub fn features(&self) -> &[u16] {
        &self.places[..self.length]
    }
}

impl Item {
    pub fn of(said: Said) -> Item {
        let mut item = Item { subject: subject_of(said), ..Item::default() };
        item.add(said);
        item
    }

    /// Whether the item can say this too: the same subject, and no such field yet.
    pub fn can_add(&self, said: Said) -> bool {
        subject_of(said) == self.subject
            && match said {
                Said::Ordered(..) => self.target.is_none(),
                Said::Compatible(..) => self.partner.is_none(),
                Said::Selected(..) => self.selection.is_none(),
                Said::Labelled(..) => self.label.is_none(),
                Said::Reached(..) => self.path.is_none(),
            }
    }

    pub fn add(&mut self, said: Said) {
        match said {
            Said::Ordered(_, j) => self.target = Some(j),
            Said::Compatible(_, j) => self.partner = Some(j),
            Said::Selected(_, f, j) => self.selection = Some((f, j)),
            Said::Labelled(a, _) => self.label = Some(a),
            Said::Reached(_, path) => self.path = Some(path),
        }
    }

    pub fn map(&self) -> u8 {
        u8::from(self.target.is_some())
            + 2 * u8::from(self.partner.is_some())
            + 4 * u8::from(self.selection.is_some())
            + 8 * u8::from(self.label.is_some())
            + 16 * u8::from(self.path.is_some())
    }
}

fn subject_of(said: Said) -> usize {
    match said {
        Said::Ordered(i, _) | Said::Compatible(i, _) | Said::Selected(i, _, _) => i,
        Said::Labelled(_, i) | Said::Reached(i, _) => i,
    }
}

impl Sheet {
    pub fn over(n: usize) -> Sheet {
        Sheet { n, ..Sheet::default() }
    }

    pub fn state(&mut self, said: Said) {
        self.records.push(Item::of(said));
    }

    /// States it in the last record where that can take it, else in a new one.
    pub fn state_together(&mut self, said: Said) {
        match self.records.last_mut() {
            Some(last) if last.can_add(said) => last.add(said),
            _ => self.state(said),
        }
    }

    pub fn ask(&mut self, said: Said) {
        self.questions.push(Item::of(said));
    }

    pub fn bytes(&self) -> Vec<u8> {
        self.written().0
    }

    pub fn fields(&self) -> Vec<Field> {
        self.written().1
    }

    fn written(&self) -> (Vec<u8>, Vec<Field>) {
        let mut out = Writer::default();
        let records = !(self.leave_out_zeros && self.records.is_empty());
        let questions = !(self.leave_out_zeros && self.questions.is_empty());
        out.byte(Place::HeaderMap, 1 + 2 * u8::from(records) + 4 * u8::from(questions));
        out.byte(Place::VariableCount, self.n as u8);
        if records {
            out.word(Place::RecordCount, self.records.len() as u16);
        }
        if questions {
            out.word(Place::QuestionCount, self.questions.len() as u16);
        }
        self.records.iter().for_each(|item| out.item(item, &RECORD));
        self.questions.iter().for_each(|item| out.item(item, &QUESTION));
        (out.bytes, out.fields)
    }
}

/// The places of an item's fields: map, subject, target, partner, feature, child, label.
type Places = [Place; 7];

const RECORD: Places = [
    Place::RecordMap,
    Place::RecordSubject,
    Place::RecordTarget,
    Place::RecordPartner,
    Place::RecordFeature,
    Place::RecordChild,
    Place::RecordLabel,
];

const QUESTION: Places = [
    Place::QuestionMap,
    Place::QuestionSubject,
    Place::QuestionTarget,
    Place::QuestionPartner,
    Place::QuestionFeature,
    Place::QuestionChild,
    Place::QuestionLabel,
];

#[derive(Default)]
struct Writer {
    bytes: Vec<u8>,
    fields: Vec<Field>,
}

impl Writer {
    fn byte(&mut self, place: Place, value: u8) {
        self.fields.push(Field { place, offset: self.bytes.len(), length: 1 });
        self.bytes.push(value);
    }

    fn word(&mut self, place: Place, value: u16) {
        self.fields.push(Field { place, offset: self.bytes.len(), length: 2 });
        self.bytes.extend(value.to_be_bytes());
    }

    fn item(&mut self, item: &Item, places: &Places) {
        self.byte(places[0], item.map());
        self.byte(places[1], item.subject as u8);
        if let Some(j) = item.target {
            self.byte(places[2], j as u8);
        }
        if let Some(j) = item.partner {
            self.byte(places[3], j as u8);
        }
        if let Some((f, j)) = item.selection {
            self.word(places[4], f);
            self.byte(places[5], j as u8);
        }
        if let Some(a) = item.label {
            self.word(places[6], a);
        }
        if let Some(path) = &item.path {
            self.byte(Place::PathCount, path.length as u8);
            path.features().iter().for_each(|&f| self.word(Place::PathFeature, f));
        }
    }
}

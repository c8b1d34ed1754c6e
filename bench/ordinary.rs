//! Ordinary sheets, as a programme compiler writes them: 40 variables, 150 records, 60 questions.

use crate::numbers::Numbers;
use crate::sheets::{Said, Sheet};
use std::ops::Range;

const VARIABLES: usize = 40;
const RECORDS: usize = 150;
const QUESTIONS: usize = 60;

// What the variables stand for: segments of a firing programme and their templates, each with a timer, and shared ones.
const TEMPLATES: Range<usize> = 0..3;
const TEMPLATE_TIMERS: Range<usize> = 3..6;
const SEGMENTS: Range<usize> = 6..16;
const TIMERS: Range<usize> = 16..26;
const SET_POINTS: Range<usize> = 26..34;
const VALUES: Range<usize> = 34..40;

const TIMER: u16 = 1;
const NEXT: u16 = 2;
const SET_POINT: u16 = 3;
const LIMIT: u16 = 4;
const FALLBACK: u16 = 5;
const KIND: u16 = 6;
const UNIT: u16 = 7;

fn one_of(numbers: &mut Numbers, range: Range<usize>) -> usize {
    numbers.between(range.start, range.end - 1)
}

/// The label of a value; the first value has none, and templates refer to no other.
fn label_of(value: usize) -> u16 {
    100 + (value % 3) as u16
}

/// Templates refer to themselves for what comes next; all extend the first one.
fn state_templates(sheet: &mut Sheet) {
    for ((t, timer), point) in TEMPLATES.zip(TEMPLATE_TIMERS).zip(SET_POINTS) {
        sheet.state(Said::Ordered(TEMPLATES.start, t));
        sheet.state(Said::Selected(t, TIMER, timer));
        sheet.state(Said::Selected(t, NEXT, t));
        sheet.state(Said::Selected(t, SET_POINT, point));
        sheet.state(Said::Selected(timer, KIND, VALUES.start));
        sheet.state(Said::Selected(point, KIND, VALUES.start));
    }
}

/// A segment has what its template has, and children of its own.
fn state_segments(numbers: &mut Numbers, sheet: &mut Sheet) {
    for (s, timer) in SEGMENTS.zip(TIMERS) {
        sheet.state(Said::Ordered(one_of(numbers, TEMPLATES), s));
        sheet.state(Said::Selected(s, TIMER, timer));
        sheet.state(Said::Selected(s, NEXT, if s + 1 < SEGMENTS.end { s + 1 } else { SEGMENTS.start }));
        sheet.state(Said::Selected(s, SET_POINT, one_of(numbers, SET_POINTS)));
        sheet.state(Said::Selected(s, LIMIT, one_of(numbers, VALUES)));
        sheet.state(Said::Selected(s, FALLBACK, one_of(numbers, SEGMENTS)));
        sheet.state(Said::Selected(timer, KIND, one_of(numbers, VALUES)));
        sheet.state(Said::Selected(timer, UNIT, one_of(numbers, VALUES)));
    }
}

fn state_values(numbers: &mut Numbers, sheet: &mut Sheet) {
    for point in SET_POINTS.skip(TEMPLATES.len()) {
        sheet.state(Said::Selected(point, KIND, one_of(numbers, VALUES)));
        sheet.state(Said::Selected(point, UNIT, one_of(numbers, VALUES)));
    }
    for value in VALUES.skip(1) {
        sheet.state(Said::Labelled(label_of(value), value));
    }
}

/// Something more about two records of one sort.
fn link(numbers: &mut Numbers) -> Said {
    let sort = numbers.pick(&[0, 1, 1, 2, 2, 3]);
    let range = [TEMPLATE_TIMERS, SEGMENTS, TIMERS, SET_POINTS][sort].clone();
    let (i, j) = (one_of(numbers, range.clone()), one_of(numbers, range));
    match numbers.below(4) {
        0 | 1 => Said::Ordered(i, j),
        2 => Said::Compatible(i, j),
        _ => Said::Labelled(label_of(numbers.below(6)), i),
    }
}

fn ask(numbers: &mut Numbers, sheet: &mut Sheet) {
    for q in 0..QUESTIONS {
        let segment = one_of(numbers, SEGMENTS);
        let all = 0..VARIABLES;
        sheet.ask(match q % 6 {
            0 => Said::Ordered(one_of(numbers, TEMPLATES), segment),
            1 => Said::Ordered(one_of(numbers, all.clone()), one_of(numbers, all)),
            2 => Said::Compatible(segment, one_of(numbers, SEGMENTS)),
            3 => Said::Compatible(one_of(numbers, TIMERS), one_of(numbers, all)),
            4 => Said::Selected(segment, numbers.between(1, 5) as u16, one_of(numbers, all)),
            _ => Said::Labelled(label_of(numbers.below(6)), one_of(numbers, all)),
        });
    }
}

/// One sheet; of the links only those are stated that are allowed.
pub fn sheet(numbers: &mut Numbers, allowed: impl Fn(&Sheet) -> bool) -> Sheet {
    let mut sheet = Sheet::over(VARIABLES);
    state_templates(&mut sheet);
    state_segments(numbers, &mut sheet);
    state_values(numbers, &mut sheet);
    assert!(allowed(&sheet), "a programme that clashes without its links");
    while sheet.records.len() < RECORDS {
        sheet.state(link(numbers));
        if !allowed(&sheet) {
            sheet.records.pop();
        }
    }
    ask(numbers, &mut sheet);
    sheet
}

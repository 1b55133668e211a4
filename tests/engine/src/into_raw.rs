//! The reference's answers in the form of the engine's, so that the two can be compared.

use kistrovu::raw;
use reference::{calls, cards};

/// An answer of the reference. (Both forms belong to other crates, so this cannot be `From`.)
pub trait IntoRaw {
    /// The engine's form of it.
    type Raw;

    fn into_raw(self) -> Self::Raw;
}

impl IntoRaw for calls::MeasuresAnswer {
    type Raw = raw::MeasuresAnswer;

    fn into_raw(self) -> raw::MeasuresAnswer {
        let measures = self.measures;
        raw::MeasuresAnswer {
            number: self.number,
            measures: raw::Measures {
                intensity: measures.intensity,
                saturation: measures.saturation,
                hue: measures.hue,
                grey: measures.grey.into(),
            },
        }
    }
}

impl IntoRaw for calls::FitAnswer {
    type Raw = raw::FitAnswer;

    fn into_raw(self) -> raw::FitAnswer {
        raw::FitAnswer {
            number: self.number,
            sums: self.sums,
            lengths: self.lengths,
        }
    }
}

impl IntoRaw for calls::VerdictAnswer {
    type Raw = raw::VerdictAnswer;

    fn into_raw(self) -> raw::VerdictAnswer {
        let verdict = self.verdict;
        raw::VerdictAnswer {
            number: self.number,
            verdict: raw::Verdict {
                cost: verdict.cost,
                rejected: verdict.rejected.into(),
            },
        }
    }
}

impl IntoRaw for calls::ModesAnswer {
    type Raw = raw::ModesAnswer;

    fn into_raw(self) -> raw::ModesAnswer {
        raw::ModesAnswer {
            number: self.number,
            separators: self.separators,
        }
    }
}

impl IntoRaw for calls::LogAnswer {
    type Raw = raw::LogAnswer;

    fn into_raw(self) -> raw::LogAnswer {
        raw::LogAnswer {
            number: self.number,
            joins: self.joins,
        }
    }
}

impl IntoRaw for calls::CardAnswer {
    type Raw = raw::Card;

    fn into_raw(self) -> raw::Card {
        raw::Card {
            number: self.number,
            len: self.len,
            entries: self.entries.map(entry_into_raw),
        }
    }
}

fn entry_into_raw(entry: cards::Entry) -> raw::Entry {
    raw::Entry {
        kind: entry.kind,
        hue: entry.hue,
        saturation: entry.saturation,
        intensity: entry.intensity,
        red: entry.red,
        green: entry.green,
        blue: entry.blue,
        count: entry.count,
    }
}

impl IntoRaw for calls::PrintedAnswer {
    type Raw = raw::Printed;

    fn into_raw(self) -> raw::Printed {
        raw::Printed {
            number: self.number,
            len: self.len,
            bytes: self.bytes,
        }
    }
}

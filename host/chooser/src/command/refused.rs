//! A refusal told to people: its number, its word, the place, what stands there, and what
//! to mend.

use super::source::{Form, Source};
use super::{print_error, print_out, Failure, Outcome};
use crate::hex::to_hex;
use crate::json::Json;
use crate::records::{record_at, Record};
use frontier::Refusal;

/// What was asked of a problem.
pub enum Call<'a> {
    /// Nothing but to be read.
    Read,
    Solve {
        room: usize,
    },
    Cut {
        sides: &'a [u8],
        room: usize,
    },
    Bound {
        prefix: &'a [u8],
    },
    /// To be written as WCSP text.
    Wcsp,
}

/// A problem and what was asked of it.
pub struct Question<'a> {
    pub source: &'a Source,
    pub call: Call<'a>,
}

impl Question<'_> {
    /// Tells a refusal, as text on standard error or as JSON on standard output.
    pub fn refuse(&self, refusal: Refusal, json: bool) -> Result<Outcome, Failure> {
        match json {
            true => {
                let told = Json::Object(vec![("refused", self.refusal_json(refusal))]);
                print_out(&format!("{told}\n"))?;
            }
            false => print_error(&self.refusal_text(refusal)),
        }
        Ok(Outcome::Refused)
    }

    fn refusal_text(&self, refusal: Refusal) -> String {
        let (number, place) = (refusal.number(), refusal.place());
        let (wrong, mend) = self.advice(refusal);
        let mut text = format!(
            "chooser: {} is refused with number {number} ({}) at byte {place}{}\n  wrong: {wrong}\n",
            self.source.label,
            refusal.word(),
            self.place_in_text(refusal)
        );
        if let Some(record) = self.record(refusal) {
            let standing = standing_text(refusal, &record);
            text.push_str(&format!("  there: {standing}\n"));
        }
        text.push_str(&format!("  mend:  {mend}\n"));
        text
    }

    /// Where the place is, for a problem that has no bytes of its own.
    fn place_in_text(&self, refusal: Refusal) -> &'static str {
        match self.source.form != Form::Binary && refusal.byte().is_some() {
            true => " of the packed problem",
            false => "",
        }
    }

    /// What JSON has as the member `refused`.
    pub fn refusal_json(&self, refusal: Refusal) -> Json {
        let (wrong, mend) = self.advice(refusal);
        let record = self.record(refusal).map_or(Json::Null, |record| {
            let (mark, number) = match refusal {
                Refusal::Leftover(_) => (Json::Null, Json::Null),
                _ => (Json::text(record.mark), Json::Number(record.number as u64)),
            };
            let bytes = Json::text(to_hex(shown(record.bytes)));
            Json::Object(vec![("mark", mark), ("number", number), ("bytes", bytes)])
        });
        Json::Object(vec![
            ("number", Json::Number(refusal.number().into())),
            ("word", Json::text(refusal.word())),
            ("place", Json::Number(refusal.place().into())),
            ("wrong", Json::text(wrong)),
            ("record", record),
            ("mend", Json::text(mend)),
        ])
    }

    /// The record at the place of the refusal; for bytes left over, a record without a mark.
    pub fn record(&self, refusal: Refusal) -> Option<Record<'_>> {
        let (bytes, place) = (&self.source.bytes[..], refusal.byte()? as usize);
        match refusal {
            Refusal::Leftover(_) => bytes.get(place..).map(|bytes| Record {
                mark: "",
                number: 0,
                bytes,
            }),
            _ => record_at(bytes, place),
        }
    }
}

/// What to call a record.
pub fn record_name(record: &Record) -> String {
    match record.mark {
        "HD" => "the HD record".into(),
        mark => format!("{mark} record {} (counted from 0)", record.number),
    }
}

/// What stands at the place of a refusal.
fn standing_text(refusal: Refusal, record: &Record) -> String {
    let part = shown(record.bytes);
    let more = if part.len() < record.bytes.len() {
        " ..."
    } else {
        ""
    };
    let spaced: Vec<String> = part.iter().map(|&byte| to_hex(&[byte])).collect();
    let bytes = match spaced.is_empty() {
        true => "no byte".into(),
        false => format!("bytes {}{more}", spaced.join(" ")),
    };
    match refusal {
        Refusal::Leftover(_) => bytes,
        _ => format!("{}, {bytes}", record_name(record)),
    }
}

/// The first bytes of a record: its fields, and enough of what follows to find it again.
fn shown(bytes: &[u8]) -> &[u8] {
    const SHOWN: usize = 16;
    &bytes[..bytes.len().min(SHOWN)]
}

//! What is wrong with a refused problem, and what to do about it.

use super::refused::{record_name, Call, Question};
use crate::records::Record;
use crate::text::Names;
use frontier::limits::{
    MAX_ARITY, MAX_BYTES, MAX_DOMAIN, MAX_OBJECTIVES, MAX_POINTS, MAX_TABLES, MAX_VARIABLES,
};
use frontier::{Problem, Refusal};

/// What is wrong, and what to do about it.
type Advice = (String, String);

impl Question<'_> {
    /// What is wrong, and what to mend.
    pub fn advice(&self, refusal: Refusal) -> Advice {
        let record = self.record(refusal);
        match refusal {
            Refusal::Oversize => (
                format!("the file has more than {MAX_BYTES} bytes"),
                "leave cost records out, or add up those of one objective over the same scope"
                    .into(),
            ),
            Refusal::CutShort(_) => self.cut_short(record),
            Refusal::Leftover(_) => leftover(refusal, record),
            Refusal::Work
            | Refusal::Sides
            | Refusal::Linked(_)
            | Refusal::Full
            | Refusal::Prefix
            | Refusal::Dialect => self.advice_of_call(refusal),
            _ => record.map_or_else(|| unknown(refusal), |record| self.field(refusal, &record)),
        }
    }

    fn cut_short(&self, record: Option<Record>) -> Advice {
        let rewrite = "write the file again in full; if it is whole, then a count in HD, a domain \
                       size or an arity is too large";
        let wrong = match record {
            _ if self.source.bytes.is_empty() => {
                let fill = "name a file with a problem in it, binary or text";
                return ("the file is empty".into(), fill.into());
            }
            Some(record) if record.bytes.is_empty() => {
                format!("the file ends where {} is due", record_name(&record))
            }
            _ => "the file ends inside this record".into(),
        };
        (wrong, rewrite.into())
    }

    /// The refusals 3 to 10, each of which concerns fields of one record.
    fn field(&self, refusal: Refusal, record: &Record) -> Advice {
        let byte = |place: usize| record.byte(place).unwrap_or_default();
        let (what, found, least, most, place) = match refusal {
            Refusal::StrayMark(_) => return stray_mark(record),
            Refusal::Variables(_) => (
                "n, the number of modules,",
                byte(2),
                1,
                MAX_VARIABLES,
                "byte 2",
            ),
            Refusal::Objectives(_) => (
                "p, the number of costs,",
                byte(3),
                1,
                MAX_OBJECTIVES,
                "byte 3",
            ),
            Refusal::Tables(_) => {
                let tables = byte(4) + 256 * byte(5);
                (
                    "r, the number of cost records,",
                    tables,
                    0,
                    MAX_TABLES,
                    "bytes 4 and 5",
                )
            }
            Refusal::Domain(_) => ("the domain size", byte(2), 1, MAX_DOMAIN, "byte 2"),
            Refusal::Owner(_) => ("the objective", byte(2), 0, self.last_number(3), "byte 2"),
            Refusal::Arity(_) => ("the arity", byte(3), 0, MAX_ARITY, "byte 3"),
            Refusal::Scope(_) => return self.scope(record),
            _ => return unknown(refusal),
        };
        let wrong = format!("{what} is {found}, and may be {least} to {most}");
        let mend = format!("put the right number into {place} of this record, counted from 0");
        (wrong, mend)
    }

    /// The last number of so many as the header's byte at this place says, counted from 0.
    fn last_number(&self, place: usize) -> usize {
        let count = self.source.bytes.get(place).copied();
        usize::from(count.unwrap_or_default()).saturating_sub(1)
    }

    fn scope(&self, record: &Record) -> Advice {
        let arity = record.byte(3).unwrap_or_default();
        let scope: Vec<usize> = (4..4 + arity)
            .filter_map(|place| record.byte(place))
            .collect();
        let last = self.last_number(2);
        let fault = match scope.iter().find(|&&module| module > last) {
            Some(module) => format!("there is no module {module}, the last one is {last}"),
            None => "a module stands in it twice".into(),
        };
        let words: Vec<String> = scope.iter().map(usize::to_string).collect();
        let wrong = format!("the scope is {}: {fault}", words.join(", "));
        let mend = "name each module once, in any order, from byte 4 of this record on; in the \
                    table the module that is named last runs fastest";
        (wrong, mend.into())
    }

    /// The refusals of what was asked, which follow those of the problem.
    fn advice_of_call(&self, refusal: Refusal) -> Advice {
        let problem = Problem::decode(&self.source.bytes);
        match (&self.call, problem) {
            (Call::Solve { room }, Ok(_)) if refusal == Refusal::Full => full(*room, ""),
            (Call::Cut { room, .. }, Ok(_)) if refusal == Refusal::Full => {
                let half = format!(", or that of a half more than {MAX_POINTS}");
                full(*room, &half)
            }
            (Call::Cut { sides, .. }, Ok(problem)) => match refusal {
                Refusal::Sides => self.sides(&problem, sides),
                _ => self.linked(&problem, sides, refusal),
            },
            (Call::Bound { prefix }, Ok(problem)) => self.prefix(&problem, prefix),
            (Call::Wcsp, Ok(problem)) => self.dialect(&problem),
            _ => unknown(refusal),
        }
    }

    fn sides(&self, problem: &Problem, sides: &[u8]) -> Advice {
        let modules = problem.variables();
        let wrong = match sides.len() == modules {
            true => "a side is neither 0 nor 1".into(),
            false => format!("there are {} sides for {modules} modules", sides.len()),
        };
        let names = self.source.names(problem);
        let mend = format!("give a 0 or 1 for each of: {}", module_list(&names));
        (wrong, mend)
    }

    fn linked(&self, problem: &Problem, sides: &[u8], refusal: Refusal) -> Advice {
        let names = self.source.names(problem);
        let record = self.record(refusal);
        let scope = record.map_or(&[][..], |record| &problem.tables[record.number].scope);
        let sided: Vec<String> = scope
            .iter()
            .map(|&v| usize::from(v))
            .map(|v| format!("{} (side {})", names.modules[v].name, sides[v]))
            .collect();
        let wrong = format!("this cost record is over {}", sided.join(", "));
        (wrong, "give these modules one side".into())
    }

    fn prefix(&self, problem: &Problem, prefix: &[u8]) -> Advice {
        let names = self.source.names(problem);
        let domains = &problem.domains;
        let outside = prefix
            .iter()
            .zip(domains)
            .position(|(value, size)| value >= size);
        let wrong = match outside {
            Some(v) if prefix.len() <= domains.len() => format!(
                "{} is given value {}, and has the values 0 to {}",
                names.modules[v].name,
                prefix[v],
                domains[v] - 1
            ),
            _ => format!(
                "there are {} values for {} modules",
                prefix.len(),
                domains.len()
            ),
        };
        let mend = format!(
            "give values for the first of these: {}",
            module_list(&names)
        );
        (wrong, mend)
    }

    fn dialect(&self, problem: &Problem) -> Advice {
        match &self.source.names(problem).costs[..] {
            [cost] => no_bound(cost),
            costs => several_costs(costs),
        }
    }
}

fn stray_mark(record: &Record) -> Advice {
    let found = String::from_utf8_lossy(&record.bytes[..record.bytes.len().min(2)]);
    let found: String = found.chars().flat_map(char::escape_debug).collect();
    let wrong = format!(
        "the mark {} is due, and '{found}' stands there",
        record.mark
    );
    let mend = match record.mark {
        "HD" => "a binary problem starts with HD; for a text problem see 'chooser help pack'",
        _ => "look at the records before: a count, a domain size or a scope may not fit its table",
    };
    (wrong, mend.into())
}

fn leftover(refusal: Refusal, record: Option<Record>) -> Advice {
    let count = record.map_or(0, |record| record.bytes.len());
    let wrong = format!("{count} bytes follow the last record that HD counts");
    let mend = format!(
        "end the file before byte {}, or count a record that is meant there in r, bytes 4 and 5",
        refusal.place()
    );
    (wrong, mend)
}

fn full(room: usize, half: &str) -> Advice {
    let wrong = format!("the frontier has more points than there is room for ({room}){half}");
    let mend = match room < MAX_POINTS {
        true => format!("take a larger --room (up to {MAX_POINTS}), or lower a ceiling"),
        false => "lower a ceiling, so that fewer choices are allowed".into(),
    };
    (wrong, mend)
}

fn several_costs(costs: &[String]) -> Advice {
    let wrong = format!(
        "WCSP text has one cost, and this problem has {}: {}",
        costs.len(),
        costs.join(", ")
    );
    let mend = "leave one cost in the problem, and of the tables those that charge it; \
                'chooser solve' takes all costs together";
    (wrong, mend.into())
}

fn no_bound(cost: &str) -> Advice {
    let (most, less) = (u32::MAX, u32::MAX - 1);
    let wrong = format!(
        "{cost} has the ceiling {most}, as a cost without one has, and the upper bound of WCSP \
         text, which is one above the ceiling, is at most that"
    );
    let mend = format!("give it a lower ceiling; {less} still allows every cost but {most} itself");
    (wrong, mend)
}

/// For a number that this call does not give.
fn unknown(refusal: Refusal) -> Advice {
    let wrong = format!("number {} was not to be expected here", refusal.number());
    let mend = "please report this, with the problem's file".into();
    (wrong, mend)
}

fn module_list(names: &Names) -> String {
    let modules = names.modules.iter().map(|module| module.name.as_str());
    modules.collect::<Vec<_>>().join(", ")
}

//! Answers told to people: the points as a table or as JSON.

use super::{print_out, Failure, Outcome};
use crate::columns::{aligned, Side};
use crate::json::Json;
use crate::text::Names;
use frontier::{Frontier, Point, Problem};

/// An answer, both ways.
pub struct Reply {
    pub text: String,
    /// The members of the JSON object.
    pub json: Vec<(&'static str, Json)>,
}

impl Reply {
    /// Prints the answer.
    pub fn print(self, json: bool) -> Result<Outcome, Failure> {
        match json {
            true => print_out(&format!("{}\n", Json::Object(self.json)))?,
            false => print_out(&self.text)?,
        }
        Ok(Outcome::Answered)
    }
}

/// The answer that these points are.
pub fn points_reply(problem: &Problem, names: &Names, list: Frontier) -> Reply {
    let text = match list.len() {
        0 => "no points: every choice has a cost above its ceiling, or is forbidden\n".into(),
        1 => format!("1 point\n\n{}", points_table(names, list)),
        count => format!("{count} points\n\n{}", points_table(names, list)),
    };
    let mut json = names_json(problem, names);
    let points = list.points().map(|point| point_json(names, point));
    json.push(("points", Json::List(points.collect())));
    Reply { text, json }
}

/// The points, one a line, costs before the bar and variants behind it.
fn points_table(names: &Names, list: Frontier) -> String {
    let modules = names.modules.iter().map(|module| module.name.clone());
    let mut lines = vec![barred(names.costs.iter().cloned(), modules)];
    for point in list {
        let costs = point.costs.iter().map(u32::to_string);
        lines.push(barred(costs, variants_of(names, point).map(String::from)));
    }
    let sides = [
        vec![Side::Right; names.costs.len()],
        vec![Side::Left; 1 + names.modules.len()],
    ];
    let table = aligned(&sides.concat(), &lines);
    table.iter().map(|line| format!("{line}\n")).collect()
}

fn barred(
    costs: impl Iterator<Item = String>,
    modules: impl Iterator<Item = String>,
) -> Vec<String> {
    costs.chain(["|".into()]).chain(modules).collect()
}

/// The variant of each module in a point, by name.
fn variants_of<'a>(names: &'a Names, point: Point<'a>) -> impl Iterator<Item = &'a str> {
    let choice = point.choice.iter().enumerate();
    choice.map(|(variable, &value)| names.variant(variable, value))
}

fn point_json(names: &Names, point: Point) -> Json {
    Json::Object(vec![
        ("costs", Json::numbers(point.costs)),
        ("choice", Json::numbers(point.choice)),
        ("variants", Json::texts(variants_of(names, point))),
    ])
}

/// The costs with their ceilings, and the modules with their variants.
pub fn names_json(problem: &Problem, names: &Names) -> Vec<(&'static str, Json)> {
    let costs = names.costs.iter().zip(&problem.ceilings);
    let cost = |(name, &ceiling): (&String, &u32)| {
        let ceiling = Json::Number(ceiling.into());
        Json::Object(vec![("name", Json::text(name)), ("ceiling", ceiling)])
    };
    let modules = names.modules.iter().map(|module| {
        Json::Object(vec![
            ("name", Json::text(&module.name)),
            ("variants", Json::texts(&module.variants)),
        ])
    });
    vec![
        ("costs", Json::List(costs.map(cost).collect())),
        ("modules", Json::List(modules.collect())),
    ]
}

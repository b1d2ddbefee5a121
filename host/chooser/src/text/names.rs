//! The names of a problem's costs, modules and variants.

use frontier::Problem;

/// A name has at most this many characters, so that tables stay narrow.
pub const LONGEST_NAME: usize = 40;

/// A module's name and its variants' names.
#[derive(Clone, Debug, PartialEq, Eq)]
pub struct Module {
    pub name: String,
    pub variants: Vec<String>,
}

/// A name for each objective, variable and value of a problem.
#[derive(Clone, Debug, Default, PartialEq, Eq)]
pub struct Names {
    pub costs: Vec<String>,
    pub modules: Vec<Module>,
}

impl Names {
    /// What to call the parts of a problem that came without names: `cost 0`, `module 0`, and the
    /// values' numbers.
    pub fn numbers(problem: &Problem) -> Names {
        Names::made(problem, "cost ", "module ", "")
    }

    /// Names that the text form can hold: `cost0`, `module0`, `v0`.
    pub fn invented(problem: &Problem) -> Names {
        Names::made(problem, "cost", "module", "v")
    }

    fn made(problem: &Problem, cost: &str, module: &str, variant: &str) -> Names {
        let numbered = |word: &str, count: usize| -> Vec<String> {
            (0..count).map(|i| format!("{word}{i}")).collect()
        };
        let modules = numbered(module, problem.variables());
        let sized = modules.into_iter().zip(&problem.domains);
        let named = sized.map(|(name, &size)| Module {
            name,
            variants: numbered(variant, size.into()),
        });
        Names {
            costs: numbered(cost, problem.objectives()),
            modules: named.collect(),
        }
    }

    /// The name of a value of a variable.
    pub fn variant(&self, variable: usize, value: u8) -> &str {
        &self.modules[variable].variants[usize::from(value)]
    }
}

/// Whether a word can be a name: a letter or `_` first, then letters, digits, `_`, `-`, `.` and `+`.
pub fn is_name(word: &str) -> bool {
    let mut letters = word.chars();
    let first = letters
        .next()
        .is_some_and(|c| c.is_alphabetic() || c == '_');
    first
        && letters.all(|c| c.is_alphanumeric() || "_-.+".contains(c))
        && word.chars().count() <= LONGEST_NAME
}

/// The variants of modules that a row of their combinations is for, the last module running fastest.
pub fn row_variants<'a>(modules: &[&'a Module], mut row: usize) -> Vec<&'a str> {
    let mut variants = Vec::new();
    for module in modules.iter().rev() {
        variants.push(module.variants[row % module.variants.len()].as_str());
        row /= module.variants.len();
    }
    variants.reverse();
    variants
}

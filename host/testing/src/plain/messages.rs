//! Messages: what a bucket costs at least, as functions of at most three earlier variables, which
//! the buckets of these variables receive. So each bucket knows of the costs that come after it.
//!
//! For every choice and in every direction, what a bucket sends (its messages and its constant) is
//! at most what it holds. That is all the search relies on.

use super::buckets::{Bucket, Function, Rows, Values};
use super::directions::{Directions, Vector};
use super::order::{has, VariableSet};
use super::settings::Settings;
use frontier::limits::{MAX_DOMAIN, MAX_VARIABLES};

/// A message's numbers have 32 bits. A lower number is a weaker bound and nothing worse.
const MOST_NUMBER: u64 = u32::MAX as u64;

/// A bucket has at most this many parts; what is in none of them is not bounded.
const MOST_PARTS: usize = 64;

/// Messages over three variables may need so many even shares of the memory that is left: the
/// positions before need memory too.
const MOST_SHARES: usize = 2;

/// Sends the messages of all buckets, over at most `width` variables, from the last to the first.
pub fn send_all<const D: usize>(
    buckets: &mut [Bucket<D>],
    sizes: &[usize],
    width: usize,
    directions: &Directions,
    settings: &Settings,
) {
    let order: Vec<usize> = buckets.iter().map(|bucket| bucket.variable).collect();
    let mut sender = Sender {
        order: &order,
        sizes,
        directions: directions.count,
        by_part: settings.by_part,
        rest: settings.rest,
        shared: settings.shared,
        numbers: settings.numbers,
        messages: settings.messages,
    };
    for position in (0..buckets.len()).rev() {
        sender.send(buckets, position, width);
    }
}

/// The vector with the lesser number in each direction.
fn least<const D: usize>(one: &Vector<D>, other: &Vector<D>) -> Vector<D> {
    std::array::from_fn(|direction| one[direction].min(other[direction]))
}

/// A part of a bucket: its functions over these earlier variables become one message.
struct Part {
    set: VariableSet,
    /// The earlier variables in search order, at most three.
    variables: Vec<usize>,
    /// The message is over so many of them, the first ones.
    kept: usize,
}

impl Part {
    /// How many combinations of values the first `count` variables have.
    fn combinations(&self, count: usize, sizes: &[usize]) -> usize {
        self.variables[..count].iter().map(|&v| sizes[v]).product()
    }
}

/// What all parts of a bucket have at least, for each value of its variable, which those that send
/// messages share alike: so none has much where another has little.
struct Shares<const D: usize> {
    total: Rows<D>,
    /// So many parts send messages; 0 where nothing is shared.
    senders: u64,
    /// So many of them have their share.
    given: u64,
}

impl<const D: usize> Shares<D> {
    /// A part gives what it has at least, and gets its share if it sends a message.
    fn exchange(&mut self, sends: bool, contents: &mut [Rows<D>]) {
        if self.senders == 0 {
            return;
        }
        self.given += u64::from(sends);
        let least = least_rows(contents);
        let share = |total: u64| match (sends, self.given == self.senders) {
            (false, _) => 0,
            (true, false) => total / self.senders,
            (true, true) => total / self.senders + total % self.senders,
        };
        for rows in contents {
            for (value, row) in rows.iter_mut().enumerate() {
                for (direction, number) in row.iter_mut().enumerate() {
                    *number -= least[value][direction];
                    *number += share(self.total[value][direction]);
                }
            }
        }
    }
}

/// The sets of the parts for messages over at most `width` variables: large functions come first,
/// and each joins a part if it can.
fn part_sets<const D: usize>(functions: &[Function<D>], width: usize) -> Vec<VariableSet> {
    let mut sets: Vec<VariableSet> = Vec::new();
    for size in (0..=2).rev() {
        for set in functions.iter().map(|function| function.earlier) {
            let covered = |part: &VariableSet| set & !part == 0;
            if set.count_ones() != size || sets.iter().any(covered) {
                continue;
            }
            let joined = |part: &&mut VariableSet| (**part | set).count_ones() as usize <= width;
            if let Some(part) = sets.iter_mut().find(joined) {
                *part |= set;
            } else if sets.len() < MOST_PARTS {
                sets.push(set);
            }
        }
    }
    sets
}

/// What sending needs to know, and the memory that is left.
struct Sender<'a> {
    order: &'a [usize],
    sizes: &'a [usize],
    directions: usize,
    by_part: bool,
    rest: bool,
    shared: bool,
    numbers: usize,
    messages: usize,
}

impl Sender<'_> {
    fn parts<const D: usize>(&self, functions: &[Function<D>], width: usize) -> Vec<Part> {
        let part = |set: VariableSet| {
            let order = self.order.iter().copied();
            let variables: Vec<usize> = order.filter(|&v| has(set, v)).collect();
            let kept = variables.len().min(width);
            Part {
                set,
                variables,
                kept,
            }
        };
        let sets = part_sets(functions, width);
        sets.into_iter().map(part).collect()
    }

    /// The numbers of a part's message; none where it sends no message.
    fn numbers_of(&self, part: &Part) -> usize {
        match part.kept {
            0 => 0,
            kept => part.combinations(kept, self.sizes) * self.directions,
        }
    }

    /// The parts of a position with the widest messages that the memory allows.
    fn widest_parts<const D: usize>(
        &self,
        functions: &[Function<D>],
        position: usize,
        most: usize,
    ) -> Vec<Part> {
        if self.by_part {
            return self.shared_out(self.parts(functions, most));
        }
        for width in (1..=most).rev() {
            let parts = self.parts(functions, width);
            let numbers: usize = parts.iter().map(|part| self.numbers_of(part)).sum();
            let messages = parts.iter().filter(|part| part.kept > 0).count();
            let room = match width {
                3 => self
                    .numbers
                    .min(MOST_SHARES * self.numbers / (position + 1)),
                _ => self.numbers,
            };
            if numbers <= room && messages <= self.messages {
                return parts;
            }
        }
        self.parts(functions, 0)
    }

    /// The parts, each with as many kept variables as the memory allows after those before it.
    fn shared_out(&self, mut parts: Vec<Part>) -> Vec<Part> {
        let (mut numbers, mut messages) = (self.numbers, self.messages);
        for part in &mut parts {
            while part.kept > 0 && (messages == 0 || self.numbers_of(part) > numbers) {
                part.kept -= 1;
            }
            numbers -= self.numbers_of(part);
            messages -= usize::from(part.kept > 0);
        }
        parts
    }

    /// Sends the messages and the constant of one bucket.
    fn send<const D: usize>(&mut self, buckets: &mut [Bucket<D>], position: usize, width: usize) {
        let parts = self.widest_parts(&buckets[position].functions, position, width);
        let size = buckets[position].size;
        let nothing = [[0; D]; MAX_DOMAIN];
        let (mut rest, mut constant) = (nothing, [0; D]);
        let mut shares = self.shares(&buckets[position], &parts);
        for (number, part) in parts.iter().enumerate() {
            let mut contents = self.contents(&buckets[position], &parts, number);
            shares.exchange(part.kept > 0, &mut contents);
            add_rows(&mut contents, &rest);
            let message = self.message(part, &contents, size);
            let left = rest_of(&contents, &message, size);
            rest = if self.rest { left } else { nothing };
            if part.kept > 0 {
                self.numbers -= self.numbers_of(part);
                self.messages -= 1;
                self.deliver(buckets, position, part, message);
            } else if !self.rest {
                add(&mut constant, &least_row(&left, size));
            }
        }
        add(&mut constant, &least_row(&rest, size));
        buckets[position].constant = constant.map(|number| number.min(MOST_NUMBER));
    }

    /// What the parts of a bucket that send messages have at least together, in equal shares.
    fn shares<const D: usize>(&self, bucket: &Bucket<D>, parts: &[Part]) -> Shares<D> {
        let mut shares = Shares {
            total: [[0; D]; MAX_DOMAIN],
            senders: parts.iter().filter(|part| part.kept > 0).count() as u64,
            given: 0,
        };
        if !self.shared || shares.senders < 2 {
            shares.senders = 0;
            return shares;
        }
        for number in 0..parts.len() {
            let least = least_rows(&self.contents(bucket, parts, number));
            for (total, row) in shares.total.iter_mut().zip(&least) {
                add(total, row);
            }
        }
        shares
    }

    /// For each combination of a part's variables, what its functions make together.
    fn contents<const D: usize>(
        &self,
        bucket: &Bucket<D>,
        parts: &[Part],
        number: usize,
    ) -> Vec<Rows<D>> {
        let part = &parts[number];
        let first_cover = |function: &&Function<D>| {
            let cover = |part: &Part| function.earlier & !part.set == 0;
            parts.iter().position(cover) == Some(number)
        };
        let functions: Vec<&Function<D>> = bucket.functions.iter().filter(first_cover).collect();
        let count = part.combinations(part.variables.len(), self.sizes);
        let rows_of = |combination| {
            let values = self.values_of(part, combination);
            let mut rows = [[0; D]; MAX_DOMAIN];
            for function in &functions {
                function.add_row(&values, &mut rows[..bucket.size]);
            }
            rows
        };
        (0..count).map(rows_of).collect()
    }

    /// The values that a combination gives to a part's variables, the last of which runs fastest.
    fn values_of(&self, part: &Part, combination: usize) -> Values {
        let mut values = [0; MAX_VARIABLES];
        let mut rest = combination;
        for &variable in part.variables.iter().rev() {
            values[variable] = (rest % self.sizes[variable]) as u8;
            rest /= self.sizes[variable];
        }
        values
    }

    /// The entries of a part's message: the least over the bucket's own variable and over the
    /// variables that are not kept. Without variables it is one entry of 0, and is not sent.
    fn message<const D: usize>(
        &self,
        part: &Part,
        contents: &[Rows<D>],
        size: usize,
    ) -> Vec<Vector<D>> {
        if part.kept == 0 {
            return vec![[0; D]];
        }
        let count = part.combinations(part.kept, self.sizes);
        let entry = |contents: &[Rows<D>]| {
            let most = [MOST_NUMBER; D];
            let rows = contents.iter().map(|rows| least_row(rows, size));
            rows.fold(most, |entry, row| least(&entry, &row))
        };
        contents.chunks(contents.len() / count).map(entry).collect()
    }

    /// Gives a part's message to the bucket of its last variable.
    fn deliver<const D: usize>(
        &self,
        buckets: &mut [Bucket<D>],
        position: usize,
        part: &Part,
        message: Vec<Vector<D>>,
    ) {
        let variables = &part.variables[..part.kept];
        let (&own, earlier) = variables.split_last().expect("a message has a variable");
        let mut function = Function::zero(own, earlier, self.sizes);
        function.entries = message;
        let to = self.order.iter().position(|&v| v == own);
        let to = to.expect("every variable has a position");
        buckets[to].functions.push(function);
        let number = buckets[to].functions.len() - 1;
        buckets[position].sent.push((to, number));
    }
}

fn add<const D: usize>(vector: &mut Vector<D>, other: &Vector<D>) {
    for (number, more) in vector.iter_mut().zip(other) {
        *number += more;
    }
}

/// Adds a row for each value to the contents of every combination.
fn add_rows<const D: usize>(contents: &mut [Rows<D>], more: &Rows<D>) {
    for rows in contents {
        for (row, more) in rows.iter_mut().zip(more) {
            add(row, more);
        }
    }
}

/// For each value the least of the contents' rows.
fn least_rows<const D: usize>(contents: &[Rows<D>]) -> Rows<D> {
    let lower = |one: Rows<D>, other: &Rows<D>| {
        std::array::from_fn(|value| least(&one[value], &other[value]))
    };
    contents[1..].iter().fold(contents[0], lower)
}

/// The least row of the own variable's values.
fn least_row<const D: usize>(rows: &Rows<D>, size: usize) -> Vector<D> {
    let rest = &rows[1..size];
    rest.iter().fold(rows[0], |lower, row| least(&lower, row))
}

/// For each value the least that a message leaves of the contents.
fn rest_of<const D: usize>(contents: &[Rows<D>], message: &[Vector<D>], size: usize) -> Rows<D> {
    let share = contents.len() / message.len();
    let mut rest = [[u64::MAX; D]; MAX_DOMAIN];
    for (contents, sent) in contents.chunks(share).zip(message) {
        for rows in contents {
            for (left, row) in rest.iter_mut().zip(&rows[..size]) {
                let kept = std::array::from_fn(|direction| row[direction] - sent[direction]);
                *left = least(left, &kept);
            }
        }
    }
    rest
}

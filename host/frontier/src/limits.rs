//! The limits (reference, section 5), each with one name.

/// n, the number of variables, is 1 to this. A point record has this many choices.
pub const MAX_VARIABLES: usize = 24;

/// p, the number of objectives, is 1 to this. A point record has this many costs.
pub const MAX_OBJECTIVES: usize = 4;

/// r, the number of cost records, is 0 to this.
pub const MAX_TABLES: usize = 256;

/// d, the size of a domain, is 1 to this.
pub const MAX_DOMAIN: usize = 8;

/// The arity of a cost record is 0 to this.
pub const MAX_ARITY: usize = 3;

/// Room is never above this, however long the lent buffers are; a half's frontier in the cut
/// call may not be longer either.
pub const MAX_POINTS: usize = 64;

/// A problem has at most this many bytes.
pub const MAX_BYTES: usize = 60_000;

/// The work buffer has at least this many numbers.
pub const LEAST_WORK: usize = 8_192;

/// A slot of a store, which keeps a problem and its answer, has this many bytes.
pub const SLOT_BYTES: usize = 63_000;

/// A store has 1 to this many slots. What is behind them is not touched.
pub const MAX_SLOTS: usize = 32;

/// A problem as WCSP text has at most this many bytes: 17 for 4 of the problem's.
pub const TEXT_LEN: usize = 255_000;

/// Costs of 64 points of any problem: so many numbers of the cost buffer are a problem's area in a batch.
pub const COSTS_LEN: usize = MAX_POINTS * MAX_OBJECTIVES;

/// Choices of 64 points of any problem: so many bytes of the choice buffer are a problem's area in a batch.
pub const CHOICES_LEN: usize = MAX_POINTS * MAX_VARIABLES;

/// A batch has at most this many problems.
pub const MAX_BATCH: usize = 16;

/// This many bytes stand before each problem of a batch: the mark `BP` and the problem's length.
pub const FRAME_BYTES: usize = 6;

/// This many numbers of the result list are a problem's area in a batch: number of refusal, place and count.
pub const RESULT_LEN: usize = 3;

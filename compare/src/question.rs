//! The questions, as values that can be printed, shrunk and asked again.

use zvonurel::{AppendState, Format};

use crate::hexadecimal;

#[derive(Debug, Clone, Copy, PartialEq, Eq)]
pub enum Call {
    CheckBody,
    BodyRow,
    BodyCount,
    BodyNth,
    /// Many calls: from piece to piece, by rows. The reference lists its pieces.
    BodyWalk,
    Expand,
    BodyToEwah,
    BodyToWah,
    /// Two calls: rewritten in the other format, and back. The reference goes by plain words.
    BodyAround,
    Compress,
    /// A writer's state, of a buffer.
    Begin,
    /// A batch of plain words, with a writer's state and its buffer.
    Append,
    /// Many calls: plain words in batches. The reference writes them at once.
    Batches,
    Check,
    Bitmap,
    BitmapRefusal,
    Row,
    Count,
    Nth,
    /// Like `BodyWalk`.
    Walk,
    ExpandBitmap,
    BitmapToEwah,
    BitmapToWah,
    IndexToEwah,
    IndexToWah,
    /// Like `BodyAround`.
    IndexAround,
    And,
    Or,
    Xor,
    AndNot,
    Not,
    Threshold,
    Symmetric,
    Histogram,
    Value,
    SignedValue,
    Sum,
    SignedDifference,
    Smaller,
    DifferenceOrZero,
    /// Many calls: the three above, and what they wrote at some rows. The reference goes by the two columns' numbers.
    Changes,
    Largest,
    Smallest,
    /// Many calls: both of these, and what is told of their rows. The reference goes by what has to hold.
    Ranks,
}

impl Call {
    pub const ALL: [Call; 44] = [
        Call::CheckBody,
        Call::BodyRow,
        Call::BodyCount,
        Call::BodyNth,
        Call::BodyWalk,
        Call::Expand,
        Call::BodyToEwah,
        Call::BodyToWah,
        Call::BodyAround,
        Call::Compress,
        Call::Begin,
        Call::Append,
        Call::Batches,
        Call::Check,
        Call::Bitmap,
        Call::BitmapRefusal,
        Call::Row,
        Call::Count,
        Call::Nth,
        Call::Walk,
        Call::ExpandBitmap,
        Call::BitmapToEwah,
        Call::BitmapToWah,
        Call::IndexToEwah,
        Call::IndexToWah,
        Call::IndexAround,
        Call::And,
        Call::Or,
        Call::Xor,
        Call::AndNot,
        Call::Not,
        Call::Threshold,
        Call::Symmetric,
        Call::Histogram,
        Call::Value,
        Call::SignedValue,
        Call::Sum,
        Call::SignedDifference,
        Call::Smaller,
        Call::DifferenceOrZero,
        Call::Changes,
        Call::Largest,
        Call::Smallest,
        Call::Ranks,
    ];

    pub const REWRITE_BODY: [Call; 3] = [Call::BodyToEwah, Call::BodyToWah, Call::BodyAround];
    pub const REWRITE_BITMAP: [Call; 2] = [Call::BitmapToEwah, Call::BitmapToWah];
    pub const REWRITE_INDEX: [Call; 3] = [Call::IndexToEwah, Call::IndexToWah, Call::IndexAround];
    /// A row of a column.
    pub const VALUES: [Call; 2] = [Call::Value, Call::SignedValue];
    /// An index made of two columns.
    pub const PAIRINGS: [Call; 4] = [Call::Sum, Call::SignedDifference, Call::Smaller, Call::DifferenceOrZero];
    /// The first rows of a column.
    pub const RANKINGS: [Call; 2] = [Call::Largest, Call::Smallest];

    /// Is it asked of an index?
    pub fn of_index(self) -> bool {
        self as usize >= Call::Check as usize
    }

    /// Is it asked of a lone body?
    pub fn of_body(self) -> bool {
        (self as usize) < Call::Compress as usize
    }

    /// Is it asked of a writer that takes rows in batches?
    pub fn of_batches(self) -> bool {
        matches!(self, Call::Begin | Call::Append | Call::Batches)
    }

    /// Is it asked of an index without a bitmap number?
    pub fn of_whole(self) -> bool {
        self == Call::Check || Call::REWRITE_INDEX.contains(&self)
    }

    pub fn of_two(self) -> bool {
        matches!(self, Call::And | Call::Or | Call::Xor | Call::AndNot)
    }

    pub fn of_list(self) -> bool {
        matches!(self, Call::Threshold | Call::Symmetric | Call::Histogram)
    }

    pub fn of_value(self) -> bool {
        Call::VALUES.contains(&self)
    }

    pub fn of_two_columns(self) -> bool {
        self == Call::Changes || Call::PAIRINGS.contains(&self)
    }

    pub fn of_ranks(self) -> bool {
        self == Call::Ranks || Call::RANKINGS.contains(&self)
    }

    pub fn of_column(self) -> bool {
        self.of_value() || self.of_two_columns() || self.of_ranks()
    }

    fn rewrites(self) -> bool {
        Call::REWRITE_BODY.contains(&self)
            || Call::REWRITE_BITMAP.contains(&self)
            || Call::REWRITE_INDEX.contains(&self)
    }

    /// Does it write into a buffer?
    pub fn writes(self) -> bool {
        self.of_two()
            || self.rewrites()
            || Call::PAIRINGS.contains(&self)
            || Call::RANKINGS.contains(&self)
            || matches!(self, Call::Expand | Call::Compress | Call::Append | Call::ExpandBitmap)
            || matches!(self, Call::Not | Call::Threshold | Call::Symmetric)
    }
}

/// One call with its arguments besides the words. Those that a call doesn't
/// take stay zero or empty.
#[derive(Debug, Clone)]
pub struct Question {
    pub call: Call,
    /// That of a lone body, or of the one that plain words become. An index tells its own.
    pub format: Format,
    /// Rows of a lone body, of plain words or of a batch.
    pub rows: u32,
    /// Bitmap numbers: one, two, or a list.
    pub list: Vec<u32>,
    /// The list of a second column.
    pub second: Vec<u32>,
    /// Row, nth, T, k, or the seed of many calls.
    pub number: u32,
    pub table: Vec<u32>,
    /// Length of the buffer.
    pub room: usize,
    /// A writer's state.
    pub state: AppendState,
    /// What its buffer begins with beforehand.
    pub before: Vec<u32>,
}

impl Question {
    /// A question on an index.
    pub fn new(call: Call) -> Question {
        let (list, second, table, before) = (Vec::new(), Vec::new(), Vec::new(), Vec::new());
        let (format, state) = (Format::Ewah, AppendState::default());
        Question { call, format, rows: 0, list, second, number: 0, table, room: 0, state, before }
    }

    /// A question on a lone body, or on plain words, of so many rows.
    pub fn lone(call: Call, format: Format, rows: u32) -> Question {
        Question { format, rows, ..Question::new(call) }
    }

    /// The state of a writer that begins with this buffer.
    pub fn begin(buffer: &[u32]) -> Question {
        Question { room: buffer.len(), before: buffer.to_vec(), ..Question::new(Call::Begin) }
    }

    /// A batch of so many rows, with this state and buffer.
    pub fn append(state: AppendState, buffer: &[u32], rows: u32) -> Question {
        Question { state, rows, call: Call::Append, ..Question::begin(buffer) }
    }

    /// The value at a row of a column, and the signed one.
    pub fn values(list: &[u32], row: u32) -> [Question; 2] {
        Call::VALUES.map(|call| Question::new(call).list(list).number(row))
    }

    /// The k largest rows of a column, the k smallest, and what holds of both.
    pub fn ranks(list: &[u32], k: u32) -> [Question; 3] {
        [Call::Largest, Call::Smallest, Call::Ranks].map(|call| Question::new(call).list(list).number(k))
    }

    /// A question on two columns.
    pub fn pair(call: Call, first: &[u32], second: &[u32]) -> Question {
        Question::new(call).list(first).second(second)
    }

    pub fn list(mut self, list: &[u32]) -> Question {
        self.list = list.to_vec();
        self
    }

    pub fn second(mut self, second: &[u32]) -> Question {
        self.second = second.to_vec();
        self
    }

    pub fn number(mut self, number: u32) -> Question {
        self.number = number;
        self
    }

    pub fn table(mut self, table: &[u32]) -> Question {
        self.table = table.to_vec();
        self
    }

    pub fn room(mut self, room: usize) -> Question {
        self.room = room;
        self
    }

    /// The call as a reader would write it.
    pub fn text(&self) -> String {
        let mut parts = Vec::new();
        if !self.call.of_index() {
            parts.push(format!("{:?}, rows {}", self.format, self.rows));
        } else if !self.call.of_whole() {
            parts.push(format!("numbers {:?}", self.list));
        }
        if self.call.of_two_columns() {
            parts.push(format!("second {:?}", self.second));
        }
        match self.call {
            Call::BodyRow | Call::Row | Call::Value | Call::SignedValue => parts.push(format!("row {}", self.number)),
            Call::BodyNth | Call::Nth => parts.push(format!("nth {}", self.number)),
            Call::BodyWalk | Call::Walk | Call::Changes | Call::Batches => parts.push(format!("seed {}", self.number)),
            Call::Threshold => parts.push(format!("T {}", self.number)),
            Call::Largest | Call::Smallest | Call::Ranks => parts.push(format!("k {}", self.number)),
            Call::Symmetric => parts.push(format!("table {:?}", self.table)),
            Call::Append => parts.push(format!("{:?} in {}", self.state, hexadecimal(&self.before))),
            _ => {}
        }
        if self.call.writes() {
            parts.push(format!("buffer of {}", self.room));
        }
        format!("{:?}({})", self.call, parts.join(", "))
    }
}

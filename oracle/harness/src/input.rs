//! One input of one call, and what a side answered to it.

/// Up to 40 numbers, so that lists above 16 can be handed over.
#[derive(Clone, Copy)]
pub struct List<T> {
    pub items: [T; 40],
    pub len: usize,
}

impl<T: Copy + Default> List<T> {
    pub fn new() -> List<T> {
        List { items: [T::default(); 40], len: 0 }
    }

    pub fn of(from: &[T]) -> List<T> {
        let mut list = List::new();
        from.iter().for_each(|&item| list.push(item));
        list
    }

    pub fn push(&mut self, item: T) {
        self.items[self.len] = item;
        self.len += 1;
    }

    pub fn slice(&self) -> &[T] {
        &self.items[..self.len]
    }
}

impl<T: Copy + Default + std::fmt::Display> List<T> {
    /// Numbers joined by commas, `-` for none.
    pub fn text(&self) -> String {
        joined(self.slice())
    }
}

pub fn joined<T: std::fmt::Display>(items: &[T]) -> String {
    if items.is_empty() {
        return "-".to_string();
    }
    items.iter().map(|item| item.to_string()).collect::<Vec<_>>().join(",")
}

/// A layout as anybody can make one: the rank may be above 16, the lists then hold the first 16 places.
#[derive(Clone, Copy, Debug)]
pub struct Layout {
    pub len: u64,
    pub offset: i64,
    pub rank: u64,
    pub extents: [u64; 16],
    pub strides: [i64; 16],
}

impl Layout {
    pub fn of(len: u64, offset: i64, extents: &[u64], strides: &[i64]) -> Layout {
        let mut layout = Layout { len, offset, rank: extents.len() as u64, extents: [0; 16], strides: [0; 16] };
        layout.extents[..extents.len()].copy_from_slice(extents);
        layout.strides[..strides.len()].copy_from_slice(strides);
        layout
    }

    pub fn held(&self) -> usize {
        self.rank.min(16) as usize
    }

    pub fn extents(&self) -> &[u64] {
        &self.extents[..self.held()]
    }

    pub fn strides(&self) -> &[i64] {
        &self.strides[..self.held()]
    }

    pub fn text(&self) -> String {
        format!("{} {} {} {}", self.len, self.offset, joined(self.extents()), joined(self.strides()))
    }
}

/// Places past the rank do not count.
impl PartialEq for Layout {
    fn eq(&self, other: &Layout) -> bool {
        (self.len, self.offset, self.rank) == (other.len, other.offset, other.rank)
            && self.extents() == other.extents()
            && self.strides() == other.strides()
    }
}

pub enum Input {
    Bounds { len: u64, offset: i64, extents: List<u64>, strides: List<i64> },
    New { len: u64, offset: i64, extents: List<u64>, strides: List<i64> },
    Permute { layout: Layout, axes: List<u64> },
    /// Two numbers a pair; an odd last number is no pair.
    Diagonal { layout: Layout, pairs: List<u64> },
    Broadcast { layout: Layout, target: List<u64> },
    Offset { layout: Layout, index: List<u64> },
    Injective { extents: List<u64>, strides: List<i64>, words: usize },
    Order { strides: List<i64>, out: usize },
    Column { extents: List<u64> },
    Row { extents: List<u64> },
}

pub const CALLS: [&str; 10] = [
    "validate_bounds", "StridedView::new", "permute", "diagonal_view", "broadcast", "indexed_offset", "is_injective_layout",
    "index_order_into", "checked_col_major_strides", "checked_row_major_strides",
];

impl Input {
    /// Place in `CALLS`.
    pub fn call(&self) -> usize {
        match self {
            Input::Bounds { .. } => 0,
            Input::New { .. } => 1,
            Input::Permute { .. } => 2,
            Input::Diagonal { .. } => 3,
            Input::Broadcast { .. } => 4,
            Input::Offset { .. } => 5,
            Input::Injective { .. } => 6,
            Input::Order { .. } => 7,
            Input::Column { .. } => 8,
            Input::Row { .. } => 9,
        }
    }

    /// The input as it can be handed over. The axes of a verdict are pairs, so that its two lists cannot differ in length: both
    /// get the length of the longer one, what is missing being what stood there, or 0. Lists that differ, refusal 2, are
    /// compared by lines of the program `layout` alone, the stored ones and the random ones.
    pub fn paired(mut self) -> Input {
        if let Input::Injective { extents, strides, .. } = &mut self {
            let len = extents.len.max(strides.len);
            (extents.len, strides.len) = (len, len);
        }
        self
    }

    /// The input in the words of the program `layout`; pairs flat.
    pub fn text(&self) -> String {
        match self {
            Input::Bounds { len, offset, extents, strides } => format!("bounds {len} {offset} {} {}", extents.text(), strides.text()),
            Input::New { len, offset, extents, strides } => format!("new {len} {offset} {} {}", extents.text(), strides.text()),
            Input::Permute { layout, axes } => format!("set {} (rank {}); permute {}", layout.text(), layout.rank, axes.text()),
            Input::Diagonal { layout, pairs } => format!("set {} (rank {}); diagonal, flat, {}", layout.text(), layout.rank, pairs.text()),
            Input::Broadcast { layout, target } => format!("set {} (rank {}); broadcast {}", layout.text(), layout.rank, target.text()),
            Input::Offset { layout, index } => format!("set {} (rank {}); offset {}", layout.text(), layout.rank, index.text()),
            Input::Injective { extents, strides, words } => format!("injective {} {} {words}", extents.text(), strides.text()),
            Input::Order { strides, out } => format!("order {} {out}", strides.text()),
            Input::Column { extents } => format!("column {}", extents.text()),
            Input::Row { extents } => format!("row {}", extents.text()),
        }
    }
}

/// What comes with number 0.
#[derive(Clone, Copy, PartialEq)]
pub enum Given {
    Nothing,
    Layout(Layout),
    Offset(i64),
    /// 1 Distinct, 2 Repeated, 3 Undecided; and the count.
    Verdict(u64, u64),
    Strides(List<i64>),
    Order(List<u64>),
}

impl<T: Copy + Default + PartialEq> PartialEq for List<T> {
    fn eq(&self, other: &List<T>) -> bool {
        self.slice() == other.slice()
    }
}

/// 0 and what is given, or a refusal's number with its values (unused ones are 0).
#[derive(Clone, Copy, PartialEq)]
pub struct Answer {
    pub number: u8,
    pub values: [u64; 2],
    pub given: Given,
}

/// How many values a refusal returns, by its number.
pub const VALUES: [usize; 17] = [0, 0, 0, 0, 2, 2, 1, 1, 0, 1, 1, 0, 0, 0, 0, 0, 0];

impl Answer {
    pub fn done(given: Given) -> Answer {
        Answer { number: 0, values: [0; 2], given }
    }

    pub fn refused(number: u8) -> Answer {
        Answer { number, values: [0; 2], given: Given::Nothing }
    }

    pub fn with(number: u8, first: u64, second: u64) -> Answer {
        Answer { number, values: [first, second], given: Given::Nothing }
    }

    /// The answer without its numbers.
    pub fn kind(&self) -> String {
        match self.given {
            _ if self.number != 0 => format!("refused {}", self.number),
            Given::Verdict(1, 0) => "distinct, count 0".to_string(),
            Given::Verdict(1, _) => "distinct after a search".to_string(),
            Given::Verdict(2, 0) => "repeated, count 0".to_string(),
            Given::Verdict(2, _) => "repeated by a search".to_string(),
            Given::Verdict(_, _) => "undecided".to_string(),
            _ => "done".to_string(),
        }
    }

    /// The answer in the words of the program `layout`.
    pub fn text(&self) -> String {
        if self.number != 0 {
            let count = VALUES.get(self.number as usize).copied().unwrap_or(0);
            return self.values[..count].iter().fold(format!("refused {}", self.number), |line, value| format!("{line} {value}"));
        }
        match &self.given {
            Given::Nothing => "ok".to_string(),
            Given::Layout(layout) => layout.text(),
            Given::Offset(offset) => offset.to_string(),
            Given::Verdict(verdict, count) => {
                format!("{} {count}", ["no verdict", "distinct", "repeated", "undecided"].get(*verdict as usize).unwrap_or(&"no verdict"))
            }
            Given::Strides(strides) => strides.text(),
            Given::Order(order) => order.text(),
        }
    }
}

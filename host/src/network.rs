//! A network, lent and owned, and the answers that the calls give.

/// The six rows of a network. The length of `periods` is the number of events, the common length of
/// the other five the number of arcs; rows of any length may be lent, and the call judges them.
#[derive(Clone, Copy, Debug)]
pub struct Network<'a> {
    pub periods: &'a [u32],
    pub tail: &'a [u32],
    pub head: &'a [u32],
    pub lower: &'a [i32],
    pub upper: &'a [i32],
    pub weight: &'a [u32],
}

/// The six rows of a network, lent for read to fill.
#[derive(Debug)]
pub struct NetworkMut<'a> {
    pub periods: &'a mut [u32],
    pub tail: &'a mut [u32],
    pub head: &'a mut [u32],
    pub lower: &'a mut [i32],
    pub upper: &'a mut [i32],
    pub weight: &'a mut [u32],
}

impl NetworkMut<'_> {
    pub fn network(&self) -> Network<'_> {
        Network {
            periods: self.periods,
            tail: self.tail,
            head: self.head,
            lower: self.lower,
            upper: self.upper,
            weight: self.weight,
        }
    }
}

/// What the archive shows of its closure: a code of the table, or 0, the rounds and how many arcs were
/// written.
#[repr(C)]
#[derive(Clone, Copy, Debug, PartialEq, Eq)]
pub struct Gauge {
    pub code: u32,
    pub rounds: u32,
    pub arcs: u64,
}

/// What a call on a timetable answers, laid out as in the C interface.
#[repr(C)]
#[derive(Clone, Copy, Debug, PartialEq, Eq)]
pub struct Answer {
    pub code: u32,
    pub place: u32,
    pub cost: u64,
}

impl Answer {
    pub fn success(cost: u64) -> Self {
        Answer {
            code: 0,
            place: 0,
            cost,
        }
    }

    pub fn refusal(code: u32, place: usize) -> Self {
        Answer {
            code,
            place: place as u32,
            cost: 0,
        }
    }
}

/// What read and print answer, laid out as in the C interface: with how many entries or bytes were
/// filled.
#[repr(C)]
#[derive(Clone, Copy, Debug, PartialEq, Eq)]
pub struct Filled {
    pub code: u32,
    pub place: u32,
    pub cost: u64,
    pub events: usize,
    pub arcs: usize,
}

impl Filled {
    pub fn success(events: usize, arcs: usize) -> Self {
        Filled {
            code: 0,
            place: 0,
            cost: 0,
            events,
            arcs,
        }
    }

    pub fn refusal(code: u32, place: usize) -> Self {
        Filled {
            code,
            place: place as u32,
            cost: 0,
            events: 0,
            arcs: 0,
        }
    }
}

impl From<Filled> for Answer {
    fn from(filled: Filled) -> Self {
        Answer {
            code: filled.code,
            place: filled.place,
            cost: filled.cost,
        }
    }
}

/// One arc, as a line across the five arc rows.
#[derive(Clone, Copy, Debug)]
pub struct Arc {
    pub tail: u32,
    pub head: u32,
    pub lower: i32,
    pub upper: i32,
    pub weight: u32,
}

/// The six rows of a network, owned, so that a case can be kept, changed and lent.
#[derive(Clone, Debug, Default, PartialEq, Eq)]
pub struct Rows {
    pub periods: Vec<u32>,
    pub tail: Vec<u32>,
    pub head: Vec<u32>,
    pub lower: Vec<i32>,
    pub upper: Vec<i32>,
    pub weight: Vec<u32>,
}

impl Rows {
    pub fn new(periods: &[u32], arcs: &[Arc]) -> Self {
        let mut rows = Rows {
            periods: periods.to_vec(),
            ..Rows::default()
        };
        for &arc in arcs {
            rows.push(arc);
        }
        rows
    }

    pub fn push(&mut self, arc: Arc) {
        self.tail.push(arc.tail);
        self.head.push(arc.head);
        self.lower.push(arc.lower);
        self.upper.push(arc.upper);
        self.weight.push(arc.weight);
    }

    pub fn insert(&mut self, place: usize, arc: Arc) {
        self.tail.insert(place, arc.tail);
        self.head.insert(place, arc.head);
        self.lower.insert(place, arc.lower);
        self.upper.insert(place, arc.upper);
        self.weight.insert(place, arc.weight);
    }

    pub fn remove(&mut self, place: usize) {
        self.tail.remove(place);
        self.head.remove(place);
        self.lower.remove(place);
        self.upper.remove(place);
        self.weight.remove(place);
    }

    /// Cuts the rows to `n` events and `m` arcs, or fills them up with zeros.
    pub fn resize(&mut self, n: usize, m: usize) {
        self.periods.resize(n, 0);
        self.tail.resize(m, 0);
        self.head.resize(m, 0);
        self.lower.resize(m, 0);
        self.upper.resize(m, 0);
        self.weight.resize(m, 0);
    }

    pub fn network(&self) -> Network<'_> {
        Network {
            periods: &self.periods,
            tail: &self.tail,
            head: &self.head,
            lower: &self.lower,
            upper: &self.upper,
            weight: &self.weight,
        }
    }
    pub fn network_mut(&mut self) -> NetworkMut<'_> {
        NetworkMut {
            periods: &mut self.periods,
            tail: &mut self.tail,
            head: &mut self.head,
            lower: &mut self.lower,
            upper: &mut self.upper,
            weight: &mut self.weight,
        }
    }
}

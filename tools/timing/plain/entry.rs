//! What a line of the book can say, and why a line is none.

/// The places of a book, and so the numbers that `fix` and `late` may name.
pub const MOST_PLACES: usize = 8192;

#[derive(Clone, Copy, PartialEq, Eq, Debug)]
pub enum Side {
    Home,
    Away,
}

impl Side {
    pub fn other(self) -> Side {
        match self {
            Side::Home => Side::Away,
            Side::Away => Side::Home,
        }
    }

    pub fn name(self) -> &'static str {
        match self {
            Side::Home => "home",
            Side::Away => "away",
        }
    }
}

#[derive(Clone, Copy, PartialEq, Eq, Debug)]
pub enum Kind {
    Bat,
    Bye,
    Leg,
    Wide,
    NoBall,
    NoBallBye,
    NoBallLeg,
}

#[derive(Clone, Copy, PartialEq, Eq, Debug)]
pub enum Boundary {
    Four,
    Six,
    Overthrow,
}

#[derive(Clone, Copy, PartialEq, Eq, Debug)]
pub enum How {
    Bowled,
    Caught,
    Lbw,
    Stumped,
    HitWicket,
    HitTwice,
    Obstructing,
    RunOut,
}

#[derive(Clone, Copy, PartialEq, Eq, Debug)]
pub enum Who {
    Striker,
    Other,
}

/// A dismissal. No line of the board tells the fielder.
#[derive(Clone, Copy, Debug)]
pub struct Out {
    pub how: How,
    pub who: Who,
    pub crossed: bool,
}

#[derive(Clone, Copy, Debug)]
pub struct Ball {
    pub bowler: usize,
    pub kind: Kind,
    pub ran: u32,
    pub short: u32,
    pub boundary: Option<Boundary>,
    pub dead: bool,
    pub out: Option<Out>,
}

#[derive(Clone, Copy, PartialEq, Eq, Debug)]
pub enum Leave {
    TimedOut,
    RetiredOut,
    RetiredHurt,
    RunOut,
}

#[derive(Clone, Copy, PartialEq, Eq, Debug)]
pub enum Cause {
    AllOut,
    NoBatter,
    Declared,
    Forfeited,
    Overs,
}

/// What happened in a match. Players are numbers from 1 to 11.
#[derive(Clone, Copy, Debug)]
pub enum Play {
    Innings(Side),
    In(usize),
    Ball(Ball),
    Gone(Leave, usize),
    Over,
    Penalty(Side),
    Swap,
    End(Cause),
    Close,
    Void,
}

/// A line of the book: what happened, or a change of what stands at a place or behind it.
#[derive(Clone, Copy, Debug)]
pub enum Entry {
    Plain(Play),
    Fix(usize, Play),
    Late(usize, Play),
}

/// Why a line is no entry.
#[derive(Clone, Copy, PartialEq, Eq, Debug)]
pub enum Fault {
    TooLong = 1,
    UnknownWord = 2,
    BadNumber = 3,
    Missing = 4,
    Extra = 5,
    Spaces = 6,
}

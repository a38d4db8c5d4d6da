//! Why an entry is refused, and what the Laws say of a delivery alone.

use std::fmt;

use crate::entry::{Ball, Boundary, How, Kind, Out, Who};

/// Why the Laws refuse an entry.
#[derive(Clone, Copy, PartialEq, Eq, Debug)]
pub enum Refusal {
    NoBatter = 1,
    BowlerTwoOvers = 2,
    NotOutSoHere = 3,
    WrongBatter = 4,
    RunsWithOut = 5,
    BoundaryAndOut = 6,
    SixNotStruck = 7,
    CrossedNotHere = 8,
    OverLong = 9,
    NoBall = 10,
    NoVacancy = 11,
    NotAvailable = 12,
    NotIn = 13,
    NotInPlay = 20,
    WrongSide = 21,
    InningsOpen = 22,
    MatchWon = 23,
    MatchClosed = 24,
    EndNotSo = 25,
}

/// Why the book doesn't take an entry.
#[derive(Clone, Copy, Debug)]
pub enum NotTaken {
    Laws(Refusal),
    NoSuchPlace,
    NotFixable,
    /// The first place at which what stands would be refused, and why.
    Later(usize, Refusal),
    NotAnchor,
    PlacesFull,
}

impl fmt::Display for NotTaken {
    fn fmt(&self, f: &mut fmt::Formatter) -> fmt::Result {
        match self {
            NotTaken::Laws(why) => write!(f, "{} {why:?}", *why as u8),
            NotTaken::NoSuchPlace => write!(f, "30 NoSuchPlace"),
            NotTaken::NotFixable => write!(f, "31 NotFixable"),
            NotTaken::Later(place, why) => write!(f, "32 Later {place} {}", *why as u8),
            NotTaken::NotAnchor => write!(f, "33 NotAnchor"),
            NotTaken::PlacesFull => write!(f, "62 PlacesFull"),
        }
    }
}

/// Whether batters may run before one of them is out so.
fn is_running(how: How) -> bool {
    matches!(how, How::RunOut | How::Obstructing)
}

fn may_be_out(kind: Kind, how: How) -> bool {
    match how {
        How::Bowled | How::Caught | How::Lbw => kind == Kind::Bat,
        How::Stumped | How::HitWicket => matches!(kind, Kind::Bat | Kind::Wide),
        How::HitTwice => matches!(kind, Kind::Bat | Kind::NoBall),
        How::Obstructing | How::RunOut => true,
    }
}

/// What of a delivery the Laws refuse, whatever went before it.
pub fn check_alone(ball: &Ball) -> Result<(), Refusal> {
    if let Some(out) = &ball.out {
        check_out(ball, out)?;
    }
    if ball.boundary == Some(Boundary::Six) && !matches!(ball.kind, Kind::Bat | Kind::NoBall) {
        return Err(Refusal::SixNotStruck);
    }
    if ball
        .out
        .is_some_and(|out| out.crossed && !is_running(out.how))
    {
        return Err(Refusal::CrossedNotHere);
    }
    Ok(())
}

fn check_out(ball: &Ball, out: &Out) -> Result<(), Refusal> {
    if !may_be_out(ball.kind, out.how) {
        return Err(Refusal::NotOutSoHere);
    }
    if !is_running(out.how) && out.who != Who::Striker {
        return Err(Refusal::WrongBatter);
    }
    if !is_running(out.how) && (ball.ran > 0 || ball.short > 0) {
        return Err(Refusal::RunsWithOut);
    }
    if ball.boundary.is_some() {
        return Err(Refusal::BoundaryAndOut);
    }
    Ok(())
}

/// The runs off the bat, and the extras.
pub fn runs(ball: &Ball) -> (u32, u32) {
    let scored = match ball.boundary {
        None => ball.ran,
        Some(Boundary::Four) => ball.ran.max(4),
        Some(Boundary::Six) => ball.ran.max(6),
        Some(Boundary::Overthrow) => 4 + ball.ran,
    };
    match ball.kind {
        Kind::Bat => (scored, 0),
        Kind::Bye | Kind::Leg => (0, scored),
        Kind::NoBall => (scored, 1),
        Kind::Wide | Kind::NoBallBye | Kind::NoBallLeg => (0, 1 + scored),
    }
}

/// Whether a delivery counts in the over.
pub fn counts(ball: &Ball) -> bool {
    !ball.dead && matches!(ball.kind, Kind::Bat | Kind::Bye | Kind::Leg)
}

pub fn changes_ends(ball: &Ball) -> bool {
    let crossed = match ball.out {
        Some(out) if !is_running(out.how) => return false,
        Some(out) => u32::from(out.crossed),
        None => 0,
    };
    let is_odd = (ball.ran + ball.short + crossed) % 2 == 1;
    match ball.boundary {
        Some(Boundary::Four) => is_odd && ball.ran > 4,
        Some(Boundary::Six) => is_odd && ball.ran > 6,
        _ => is_odd,
    }
}

//! A match: its innings, who has won, and the lines of its board.

use std::fmt;

use crate::entry::{Cause, Play, Side};
use crate::innings::Innings;
use crate::rules::Refusal;

const PENALTY: u32 = 5;

#[derive(Clone, Debug)]
pub struct Match {
    innings_a_side: usize,
    innings: Vec<Innings>,
    /// Whether the last innings is open.
    is_open: bool,
    is_closed: bool,
    /// Penalty runs that count once the side bats.
    home_waiting: u32,
    away_waiting: u32,
}

impl Match {
    pub fn new(innings_a_side: usize) -> Match {
        Match {
            innings_a_side,
            innings: Vec::new(),
            is_open: false,
            is_closed: false,
            home_waiting: 0,
            away_waiting: 0,
        }
    }

    /// Takes what happened, if the Laws allow it. Otherwise nothing changes.
    pub fn take(&mut self, play: &Play) -> Result<(), Refusal> {
        if matches!(play, Play::Void) {
            return Ok(());
        }
        if self.is_closed {
            return Err(Refusal::MatchClosed);
        }
        let is_won = self.winner().is_some();
        if is_won && !matches!(play, Play::Penalty(_) | Play::Close | Play::Over) {
            return Err(Refusal::MatchWon);
        }
        match play {
            Play::Innings(side) => self.begin(*side)?,
            Play::In(player) => self.in_play()?.come_in(*player)?,
            Play::Ball(ball) => self.in_play()?.bowl(ball)?,
            Play::Gone(leave, player) => self.in_play()?.leave(*leave, *player)?,
            Play::Over => self.open_mut().ok_or(Refusal::NotInPlay)?.call_over()?,
            Play::Penalty(side) => self.award(*side, is_won)?,
            Play::Swap => self.in_play()?.swap()?,
            Play::End(cause) => self.end(*cause)?,
            Play::Close => self.is_closed = true,
            Play::Void => {}
        }
        Ok(())
    }

    fn open(&self) -> Option<&Innings> {
        if self.is_open {
            self.innings.last()
        } else {
            None
        }
    }

    fn open_mut(&mut self) -> Option<&mut Innings> {
        if self.is_open {
            self.innings.last_mut()
        } else {
            None
        }
    }

    /// The innings that is open, if it has fewer than ten wickets down.
    fn in_play(&mut self) -> Result<&mut Innings, Refusal> {
        self.open_mut()
            .filter(|innings| !innings.is_all_out())
            .ok_or(Refusal::NotInPlay)
    }

    fn begin(&mut self, side: Side) -> Result<(), Refusal> {
        if self.is_open {
            return Err(Refusal::InningsOpen);
        }
        let begun = self.begun(side);
        if begun == self.innings_a_side || begun == 1 && self.begun(side.other()) == 0 {
            return Err(Refusal::WrongSide);
        }
        let total = std::mem::take(self.waiting(side));
        self.innings.push(Innings::new(side, total));
        self.is_open = true;
        Ok(())
    }

    fn end(&mut self, cause: Cause) -> Result<(), Refusal> {
        let innings = self.open_mut().ok_or(Refusal::NotInPlay)?;
        if !innings.may_end(cause) {
            return Err(Refusal::EndNotSo);
        }
        innings.end();
        self.is_open = false;
        Ok(())
    }

    fn award(&mut self, side: Side, is_won: bool) -> Result<(), Refusal> {
        if !is_won && self.open().is_some_and(Innings::is_all_out) {
            return Err(Refusal::NotInPlay);
        }
        // The side's innings that is open is its last one too.
        match self
            .innings
            .iter_mut()
            .rev()
            .find(|innings| innings.side == side)
        {
            Some(innings) => innings.total += PENALTY,
            None => *self.waiting(side) += PENALTY,
        }
        Ok(())
    }

    fn waiting(&mut self, side: Side) -> &mut u32 {
        match side {
            Side::Home => &mut self.home_waiting,
            Side::Away => &mut self.away_waiting,
        }
    }

    /// How many innings the side has begun.
    fn begun(&self, side: Side) -> usize {
        self.innings
            .iter()
            .filter(|innings| innings.side == side)
            .count()
    }

    /// Whether the side has ended all its innings.
    fn is_done(&self, side: Side) -> bool {
        self.begun(side) == self.innings_a_side
            && self.open().is_none_or(|innings| innings.side != side)
    }

    fn side_total(&self, side: Side) -> u32 {
        self.innings
            .iter()
            .filter(|innings| innings.side == side)
            .map(|innings| innings.total)
            .sum()
    }

    /// The side that has won, if one has. Where an innings is open and the other side is done, it is the last one.
    fn winner(&self) -> Option<Side> {
        [Side::Home, Side::Away].into_iter().find(|side| {
            self.is_done(side.other()) && self.side_total(*side) > self.side_total(side.other())
        })
    }

    fn target(&self) -> Option<u32> {
        let open = self
            .open()
            .filter(|innings| self.is_done(innings.side.other()))?;
        let before = self.side_total(open.side) - open.total;
        Some(self.side_total(open.side.other()) + 1 - before)
    }

    fn result(&self) -> String {
        match self.winner() {
            Some(side) => format!("{} won by {}", side.name(), self.margin(side)),
            None if self.is_done(Side::Home) && self.is_done(Side::Away) => {
                "match tied".to_string()
            }
            None if self.is_closed => "match drawn".to_string(),
            None => "-".to_string(),
        }
    }

    /// By what the winner has won.
    fn margin(&self, winner: Side) -> String {
        let runs = self.side_total(winner) - self.side_total(winner.other());
        if let Some(innings) = self.open() {
            counted(innings.wickets_left(), "wicket")
        } else if !self.is_done(winner) {
            format!("an innings and {}", counted(runs, "run"))
        } else if self
            .innings
            .last()
            .is_some_and(|innings| innings.side == winner)
        {
            "penalty runs".to_string()
        } else {
            counted(runs, "run")
        }
    }
}

fn counted(count: u32, what: &str) -> String {
    if count == 1 {
        format!("1 {what}")
    } else {
        format!("{count} {what}s")
    }
}

/// The six lines of a board.
impl fmt::Display for Match {
    fn fmt(&self, f: &mut fmt::Formatter) -> fmt::Result {
        match self.innings.last() {
            Some(innings) => {
                writeln!(
                    f,
                    "{} {} for {}",
                    innings.side.name(),
                    innings.total,
                    innings.wickets
                )?;
                writeln!(f, "Overs {}.{}", innings.overs, innings.balls)?;
                write_batter(f, "Striker", innings, innings.striker)?;
                write_batter(f, "Other", innings, innings.other)?;
            }
            None => writeln!(f, "No play\nOvers -\nStriker -\nOther -")?,
        }
        match self.target() {
            Some(target) => writeln!(f, "Target {target}")?,
            None => writeln!(f, "Target -")?,
        }
        writeln!(f, "Result {}", self.result())
    }
}

fn write_batter(
    f: &mut fmt::Formatter,
    end: &str,
    innings: &Innings,
    player: Option<usize>,
) -> fmt::Result {
    match player {
        Some(player) => {
            let (runs, faced) = innings.figures(player);
            writeln!(f, "{end} {player} {runs} ({faced})")
        }
        None => writeln!(f, "{end} -"),
    }
}

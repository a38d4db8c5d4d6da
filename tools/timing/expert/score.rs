//! The score of a match, in some two hundred bytes that are copied as they are, and the six lines of its board.

use std::fmt;

use crate::entry::{Ball, Cause, Kind, Leave, Play, Side, Who};
use crate::rules::{changes_ends, check_alone, counts, runs, Refusal};

const PENALTY: u32 = 5;
const MOST_DELIVERIES: u32 = 60;
const ALL_OUT: u32 = 10;
/// The players 1 to 11, a bit each.
const ALL: u16 = 0b1111_1111_1110;

#[derive(Clone, Copy, Default)]
struct Batter {
    runs: u32,
    faced: u32,
}

#[derive(Clone, Copy)]
struct Innings {
    side: Side,
    total: u32,
    wickets: u32,
    overs: u32,
    /// The deliveries since the last call, and those that count.
    deliveries: u32,
    balls: u32,
    /// Who is at the ends; 0 is nobody.
    striker: usize,
    other: usize,
    /// Who may come in, and who retired hurt and may not return before the next one goes.
    available: u16,
    resting: u16,
    bowlers: u16,
    last_bowlers: u16,
    batters: [Batter; 12],
}

#[derive(Clone, Copy)]
pub struct Score {
    innings_a_side: usize,
    is_open: bool,
    is_closed: bool,
    has_won: bool,
    /// By side: innings begun, runs of all of them, penalty runs that count once the side bats.
    begun: [usize; 2],
    totals: [u32; 2],
    waiting: [u32; 2],
    /// The innings begun last.
    innings: Innings,
}

impl Innings {
    fn new(side: Side, total: u32) -> Innings {
        Innings {
            side, total, wickets: 0, overs: 0, deliveries: 0, balls: 0, striker: 0, other: 0, available: ALL, resting: 0,
            bowlers: 0, last_bowlers: 0, batters: [Batter::default(); 12],
        }
    }

    fn has_vacancy(&self) -> bool {
        self.striker == 0 || self.other == 0
    }

    fn come_in(&mut self, player: usize) -> Result<(), Refusal> {
        if !self.has_vacancy() {
            return Err(Refusal::NoVacancy);
        }
        if self.available & 1 << player == 0 {
            return Err(Refusal::NotAvailable);
        }
        self.available &= !(1 << player);
        let end = if self.striker == 0 { &mut self.striker } else { &mut self.other };
        *end = player;
        Ok(())
    }

    fn change_ends(&mut self) {
        std::mem::swap(&mut self.striker, &mut self.other);
    }

    fn swap(&mut self) -> Result<(), Refusal> {
        if self.has_vacancy() {
            return Err(Refusal::NoBatter);
        }
        self.change_ends();
        Ok(())
    }

    fn call_over(&mut self) -> Result<(), Refusal> {
        if self.balls == 0 {
            return Err(Refusal::NoBall);
        }
        self.overs += 1;
        self.balls = 0;
        self.deliveries = 0;
        self.last_bowlers = std::mem::take(&mut self.bowlers);
        self.change_ends();
        Ok(())
    }

    fn leave(&mut self, how: Leave, player: usize) -> Result<(), Refusal> {
        let is_in = self.striker == player || self.other == player;
        match how {
            Leave::TimedOut if !self.has_vacancy() => return Err(Refusal::NoVacancy),
            Leave::TimedOut if self.available & 1 << player == 0 => return Err(Refusal::NotAvailable),
            Leave::RunOut if self.has_vacancy() => return Err(Refusal::NoBatter),
            Leave::RunOut if self.striker == player => return Err(Refusal::WrongBatter),
            Leave::RetiredOut | Leave::RetiredHurt | Leave::RunOut if !is_in => return Err(Refusal::NotIn),
            _ => {}
        }
        self.go(player);
        if how == Leave::RetiredHurt {
            self.resting = 1 << player;
        } else {
            self.wickets += 1;
        }
        Ok(())
    }

    /// Takes a player from the ends. Who was hurt before may return.
    fn go(&mut self, player: usize) {
        if self.striker == player {
            self.striker = 0;
        }
        if self.other == player {
            self.other = 0;
        }
        self.available = self.available & !(1 << player) | std::mem::take(&mut self.resting);
    }

    /// Takes a delivery, and answers its runs.
    fn bowl(&mut self, ball: &Ball) -> Result<u32, Refusal> {
        self.check(ball)?;
        let (off_bat, extras) = runs(ball);
        let batter = &mut self.batters[self.striker];
        batter.runs += off_bat;
        batter.faced += u32::from(ball.kind != Kind::Wide);
        self.total += off_bat + extras;
        self.deliveries += 1;
        self.balls += u32::from(counts(ball));
        self.bowlers |= 1 << ball.bowler;
        let out = ball.out.map(|out| if out.who == Who::Striker { self.striker } else { self.other });
        if changes_ends(ball) {
            self.change_ends();
        }
        if let Some(player) = out {
            self.go(player);
            self.wickets += 1;
        }
        Ok(off_bat + extras)
    }

    fn check(&self, ball: &Ball) -> Result<(), Refusal> {
        if self.has_vacancy() {
            return Err(Refusal::NoBatter);
        }
        if self.last_bowlers & 1 << ball.bowler != 0 {
            return Err(Refusal::BowlerTwoOvers);
        }
        check_alone(ball)?;
        if self.deliveries >= MOST_DELIVERIES {
            return Err(Refusal::OverLong);
        }
        Ok(())
    }

    /// Whether the innings may end for this cause. Before anyone came in all players are available.
    fn may_end(&self, cause: Cause) -> bool {
        let is_all_out = self.wickets >= ALL_OUT;
        match cause {
            Cause::AllOut => is_all_out,
            Cause::NoBatter => !is_all_out && self.has_vacancy(),
            Cause::Declared => !is_all_out,
            Cause::Forfeited => self.wickets == 0 && self.available == ALL,
            Cause::Overs => !is_all_out && self.overs > 0 && self.deliveries == 0,
        }
    }
}

impl Score {
    pub fn new(innings_a_side: usize) -> Score {
        Score {
            innings_a_side, is_open: false, is_closed: false, has_won: false, begun: [0; 2], totals: [0; 2], waiting: [0; 2],
            innings: Innings::new(Side::Home, 0),
        }
    }

    /// Takes what happened, if the Laws allow it. Otherwise nothing changes.
    pub fn take(&mut self, play: &Play) -> Result<(), Refusal> {
        if matches!(play, Play::Void) {
            return Ok(());
        }
        if self.is_closed {
            return Err(Refusal::MatchClosed);
        }
        if self.has_won && !matches!(play, Play::Penalty(_) | Play::Close | Play::Over) {
            return Err(Refusal::MatchWon);
        }
        match play {
            Play::Ball(ball) => {
                let runs = self.in_play()?.bowl(ball)?;
                self.totals[self.innings.side as usize] += runs;
                self.has_won = self.is_winner(self.innings.side);
            }
            Play::Over if self.is_open => self.innings.call_over()?,
            Play::Over => return Err(Refusal::NotInPlay),
            Play::In(player) => self.in_play()?.come_in(*player)?,
            Play::Gone(leave, player) => self.in_play()?.leave(*leave, *player)?,
            Play::Swap => self.in_play()?.swap()?,
            Play::Innings(side) => self.begin(*side)?,
            Play::Penalty(side) => self.award(*side)?,
            Play::End(cause) => self.end(*cause)?,
            Play::Close => self.is_closed = true,
            Play::Void => {}
        }
        Ok(())
    }

    /// The innings that is open, if it has fewer than ten wickets down.
    fn in_play(&mut self) -> Result<&mut Innings, Refusal> {
        if self.is_open && self.innings.wickets < ALL_OUT { Ok(&mut self.innings) } else { Err(Refusal::NotInPlay) }
    }

    fn begin(&mut self, side: Side) -> Result<(), Refusal> {
        let begun = self.begun[side as usize];
        if self.is_open {
            return Err(Refusal::InningsOpen);
        }
        if begun == self.innings_a_side || begun == 1 && self.begun[side.other() as usize] == 0 {
            return Err(Refusal::WrongSide);
        }
        let total = std::mem::take(&mut self.waiting[side as usize]);
        self.innings = Innings::new(side, total);
        self.begun[side as usize] += 1;
        self.totals[side as usize] += total;
        self.is_open = true;
        self.look_who_won();
        Ok(())
    }

    fn end(&mut self, cause: Cause) -> Result<(), Refusal> {
        if !self.is_open {
            return Err(Refusal::NotInPlay);
        }
        if !self.innings.may_end(cause) {
            return Err(Refusal::EndNotSo);
        }
        self.innings.striker = 0;
        self.innings.other = 0;
        self.is_open = false;
        self.look_who_won();
        Ok(())
    }

    fn award(&mut self, side: Side) -> Result<(), Refusal> {
        if !self.has_won && self.is_open && self.innings.wickets >= ALL_OUT {
            return Err(Refusal::NotInPlay);
        }
        if self.begun[side as usize] == 0 {
            self.waiting[side as usize] += PENALTY;
            return Ok(());
        }
        self.totals[side as usize] += PENALTY;
        if self.innings.side == side {
            self.innings.total += PENALTY;
        }
        self.look_who_won();
        Ok(())
    }

    /// Whether the side has ended all its innings.
    fn is_done(&self, side: Side) -> bool {
        self.begun[side as usize] == self.innings_a_side && !(self.is_open && self.innings.side == side)
    }

    fn is_winner(&self, side: Side) -> bool {
        self.is_done(side.other()) && self.totals[side as usize] > self.totals[side.other() as usize]
    }

    fn winner(&self) -> Option<Side> {
        [Side::Home, Side::Away].into_iter().find(|side| self.is_winner(*side))
    }

    fn look_who_won(&mut self) {
        self.has_won = self.winner().is_some();
    }

    fn target(&self) -> Option<u32> {
        let side = self.innings.side;
        let before = self.totals[side as usize] - self.innings.total;
        (self.is_open && self.is_done(side.other())).then(|| self.totals[side.other() as usize] + 1 - before)
    }

    /// By what the winner has won.
    fn margin(&self, winner: Side) -> String {
        let runs = self.totals[winner as usize] - self.totals[winner.other() as usize];
        if self.is_open {
            counted(ALL_OUT - self.innings.wickets, "wicket")
        } else if !self.is_done(winner) {
            format!("an innings and {}", counted(runs, "run"))
        } else if self.innings.side == winner {
            "penalty runs".to_string()
        } else {
            counted(runs, "run")
        }
    }

    fn result(&self) -> String {
        match self.winner() {
            Some(side) => format!("{} won by {}", side.name(), self.margin(side)),
            None if self.is_done(Side::Home) && self.is_done(Side::Away) => "match tied".to_string(),
            None if self.is_closed => "match drawn".to_string(),
            None => "-".to_string(),
        }
    }
}

fn counted(count: u32, what: &str) -> String {
    format!("{count} {what}{}", if count == 1 { "" } else { "s" })
}

/// The six lines of a board.
impl fmt::Display for Score {
    fn fmt(&self, f: &mut fmt::Formatter) -> fmt::Result {
        let it = &self.innings;
        if self.begun == [0, 0] {
            writeln!(f, "No play\nOvers -\nStriker -\nOther -")?;
        } else {
            writeln!(f, "{} {} for {}\nOvers {}.{}", it.side.name(), it.total, it.wickets, it.overs, it.balls)?;
            for (end, player) in [("Striker", it.striker), ("Other", it.other)] {
                let Batter { runs, faced } = it.batters[player];
                match player {
                    0 => writeln!(f, "{end} -")?,
                    _ => writeln!(f, "{end} {player} {runs} ({faced})")?,
                }
            }
        }
        match self.target() {
            Some(target) => writeln!(f, "Target {target}")?,
            None => writeln!(f, "Target -")?,
        }
        writeln!(f, "Result {}", self.result())
    }
}

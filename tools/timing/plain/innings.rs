//! An innings: who is at the ends, what counts, and what the Laws refuse in it.

use crate::entry::{Ball, Cause, Kind, Leave, Side, Who};
use crate::rules::{changes_ends, check_alone, counts, runs, Refusal};

const MOST_DELIVERIES: u32 = 60;
const ALL_OUT: u32 = 10;

#[derive(Clone, Copy, PartialEq, Eq, Debug)]
enum State {
    ToCome,
    In,
    Hurt { may_return: bool },
    Out,
}

#[derive(Clone, Copy, Debug)]
struct Batter {
    state: State,
    runs: u32,
    faced: u32,
}

/// The bowlers of an over, by their numbers.
type Bowlers = [bool; 12];

#[derive(Clone, Debug)]
pub struct Innings {
    pub side: Side,
    pub total: u32,
    pub wickets: u32,
    pub striker: Option<usize>,
    pub other: Option<usize>,
    /// By the batters' numbers; number 0 is nobody's.
    batters: [Batter; 12],
    /// The overs that were called, and the balls that count since.
    pub overs: u32,
    pub balls: u32,
    /// All deliveries since the last call.
    deliveries: u32,
    bowlers: Bowlers,
    last_bowlers: Bowlers,
}

impl Innings {
    pub fn new(side: Side, total: u32) -> Innings {
        Innings {
            side,
            total,
            wickets: 0,
            striker: None,
            other: None,
            batters: [Batter {
                state: State::ToCome,
                runs: 0,
                faced: 0,
            }; 12],
            overs: 0,
            balls: 0,
            deliveries: 0,
            bowlers: [false; 12],
            last_bowlers: [false; 12],
        }
    }

    pub fn is_all_out(&self) -> bool {
        self.wickets >= ALL_OUT
    }

    pub fn wickets_left(&self) -> u32 {
        ALL_OUT - self.wickets
    }

    /// A batter's runs and the balls that he faced.
    pub fn figures(&self, player: usize) -> (u32, u32) {
        (self.batters[player].runs, self.batters[player].faced)
    }

    fn has_vacancy(&self) -> bool {
        self.striker.is_none() || self.other.is_none()
    }

    fn may_come_in(&self, player: usize) -> bool {
        matches!(
            self.batters[player].state,
            State::ToCome | State::Hurt { may_return: true }
        )
    }

    pub fn come_in(&mut self, player: usize) -> Result<(), Refusal> {
        if !self.has_vacancy() {
            return Err(Refusal::NoVacancy);
        }
        if !self.may_come_in(player) {
            return Err(Refusal::NotAvailable);
        }
        self.batters[player].state = State::In;
        if self.striker.is_none() {
            self.striker = Some(player);
        } else {
            self.other = Some(player);
        }
        Ok(())
    }

    pub fn swap(&mut self) -> Result<(), Refusal> {
        if self.has_vacancy() {
            return Err(Refusal::NoBatter);
        }
        self.change_ends();
        Ok(())
    }

    fn change_ends(&mut self) {
        std::mem::swap(&mut self.striker, &mut self.other);
    }

    pub fn call_over(&mut self) -> Result<(), Refusal> {
        if self.balls == 0 {
            return Err(Refusal::NoBall);
        }
        self.overs += 1;
        self.balls = 0;
        self.deliveries = 0;
        self.last_bowlers = self.bowlers;
        self.bowlers = [false; 12];
        self.change_ends();
        Ok(())
    }

    pub fn leave(&mut self, how: Leave, player: usize) -> Result<(), Refusal> {
        self.check_leave(how, player)?;
        self.vacate(player);
        if how == Leave::RetiredHurt {
            self.let_hurt_return();
            self.batters[player].state = State::Hurt { may_return: false };
        } else {
            self.lose_wicket(player);
        }
        Ok(())
    }

    fn check_leave(&self, how: Leave, player: usize) -> Result<(), Refusal> {
        let is_in = self.striker == Some(player) || self.other == Some(player);
        match how {
            Leave::TimedOut if !self.has_vacancy() => Err(Refusal::NoVacancy),
            Leave::TimedOut if !self.may_come_in(player) => Err(Refusal::NotAvailable),
            Leave::RunOut if self.has_vacancy() => Err(Refusal::NoBatter),
            Leave::RunOut if self.striker == Some(player) => Err(Refusal::WrongBatter),
            Leave::RetiredOut | Leave::RetiredHurt | Leave::RunOut if !is_in => Err(Refusal::NotIn),
            _ => Ok(()),
        }
    }

    fn vacate(&mut self, player: usize) {
        if self.striker == Some(player) {
            self.striker = None;
        }
        if self.other == Some(player) {
            self.other = None;
        }
    }

    fn lose_wicket(&mut self, player: usize) {
        self.wickets += 1;
        self.let_hurt_return();
        self.batters[player].state = State::Out;
    }

    fn let_hurt_return(&mut self) {
        for batter in &mut self.batters {
            if let State::Hurt { may_return } = &mut batter.state {
                *may_return = true;
            }
        }
    }

    pub fn bowl(&mut self, ball: &Ball) -> Result<(), Refusal> {
        let (Some(striker), Some(other)) = (self.striker, self.other) else {
            return Err(Refusal::NoBatter);
        };
        self.check_ball(ball)?;
        let (off_bat, extras) = runs(ball);
        self.total += off_bat + extras;
        self.batters[striker].runs += off_bat;
        if ball.kind != Kind::Wide {
            self.batters[striker].faced += 1;
        }
        self.deliveries += 1;
        if counts(ball) {
            self.balls += 1;
        }
        self.bowlers[ball.bowler] = true;
        if changes_ends(ball) {
            self.change_ends();
        }
        if let Some(out) = ball.out {
            let player = if out.who == Who::Striker {
                striker
            } else {
                other
            };
            self.vacate(player);
            self.lose_wicket(player);
        }
        Ok(())
    }

    fn check_ball(&self, ball: &Ball) -> Result<(), Refusal> {
        if self.last_bowlers[ball.bowler] {
            return Err(Refusal::BowlerTwoOvers);
        }
        check_alone(ball)?;
        if self.deliveries >= MOST_DELIVERIES {
            return Err(Refusal::OverLong);
        }
        Ok(())
    }

    /// Whether the innings may end for this cause.
    pub fn may_end(&self, cause: Cause) -> bool {
        match cause {
            Cause::AllOut => self.is_all_out(),
            Cause::NoBatter => !self.is_all_out() && self.has_vacancy(),
            Cause::Declared => !self.is_all_out(),
            Cause::Forfeited => {
                self.wickets == 0
                    && self
                        .batters
                        .iter()
                        .all(|batter| batter.state == State::ToCome)
            }
            Cause::Overs => !self.is_all_out() && self.overs > 0 && self.deliveries == 0,
        }
    }

    pub fn end(&mut self) {
        self.striker = None;
        self.other = None;
    }
}

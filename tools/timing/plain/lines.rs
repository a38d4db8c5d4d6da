//! Pen lines: what a scorer writes, as an entry or with what is wrong in it.

use std::iter::Peekable;
use std::ops::RangeInclusive;
use std::str::Split;

use crate::entry::*;

const LONGEST: usize = 96;

/// Reads a line without its newline.
pub fn read_line(line: &[u8]) -> Result<Entry, Fault> {
    if line.len() > LONGEST {
        return Err(Fault::TooLong);
    }
    let line = std::str::from_utf8(line).map_err(|_| Fault::Spaces)?;
    let is_text = line.bytes().all(|byte| (b' '..=b'~').contains(&byte));
    if !is_text
        || line.is_empty()
        || line.starts_with(' ')
        || line.ends_with(' ')
        || line.contains("  ")
    {
        return Err(Fault::Spaces);
    }
    let mut words = Words {
        left: line.split(' ').peekable(),
    };
    let entry = words.entry()?;
    match words.left.next() {
        None => Ok(entry),
        Some(_) => Err(Fault::Extra),
    }
}

/// The words of a line that weren't read yet.
struct Words<'a> {
    left: Peekable<Split<'a, char>>,
}

impl<'a> Words<'a> {
    fn word(&mut self) -> Result<&'a str, Fault> {
        self.left.next().ok_or(Fault::Missing)
    }

    fn number(&mut self, range: RangeInclusive<u32>) -> Result<u32, Fault> {
        let word = self.word()?;
        let is_plain = word.bytes().all(|byte| byte.is_ascii_digit())
            && (word == "0" || !word.starts_with('0'));
        match word.parse() {
            Ok(number) if is_plain && range.contains(&number) => Ok(number),
            _ => Err(Fault::BadNumber),
        }
    }

    fn player(&mut self) -> Result<usize, Fault> {
        Ok(self.number(1..=11)? as usize)
    }

    fn place(&mut self) -> Result<usize, Fault> {
        Ok(self.number(0..=MOST_PLACES as u32 - 1)? as usize)
    }

    /// Whether this word comes next. If so, it is read.
    fn takes(&mut self, word: &str) -> bool {
        self.left.next_if(|next| *next == word).is_some()
    }

    fn entry(&mut self) -> Result<Entry, Fault> {
        match self.word()? {
            "fix" => {
                let place = self.place()?;
                let first = self.word()?;
                Ok(Entry::Fix(place, self.play(first)?))
            }
            "late" => {
                let place = self.place()?;
                let first = self.word()?;
                Ok(Entry::Late(place, self.play(first)?))
            }
            first => Ok(Entry::Plain(self.play(first)?)),
        }
    }

    fn play(&mut self, first: &str) -> Result<Play, Fault> {
        Ok(match first {
            "innings" => Play::Innings(self.side()?),
            "in" => Play::In(self.player()?),
            "ball" => Play::Ball(self.ball()?),
            "gone" => Play::Gone(self.leave()?, self.player()?),
            "over" => Play::Over,
            "penalty" => {
                let side = self.side()?;
                // The Law's numbers, which the board doesn't tell.
                self.number(1..=42)?;
                self.number(0..=99)?;
                Play::Penalty(side)
            }
            "swap" => Play::Swap,
            "end" => Play::End(self.cause()?),
            "close" => Play::Close,
            "void" => Play::Void,
            _ => return Err(Fault::UnknownWord),
        })
    }

    fn ball(&mut self) -> Result<Ball, Fault> {
        let bowler = self.player()?;
        let kind = self.kind()?;
        let ran = self.number(0..=20)?;
        let short = if self.takes("short") {
            self.number(1..=20)?
        } else {
            0
        };
        let boundary = self.boundary();
        let dead = self.takes("dead");
        let out = if self.takes("out") {
            Some(self.out()?)
        } else {
            None
        };
        Ok(Ball {
            bowler,
            kind,
            ran,
            short,
            boundary,
            dead,
            out,
        })
    }

    fn out(&mut self) -> Result<Out, Fault> {
        let how = self.how()?;
        let who = self.who()?;
        self.number(0..=12)?;
        let crossed = self.takes("crossed");
        Ok(Out { how, who, crossed })
    }

    fn boundary(&mut self) -> Option<Boundary> {
        let boundary = match *self.left.peek()? {
            "four" => Boundary::Four,
            "six" => Boundary::Six,
            "overthrow" => Boundary::Overthrow,
            _ => return None,
        };
        self.left.next();
        Some(boundary)
    }

    fn side(&mut self) -> Result<Side, Fault> {
        match self.word()? {
            "home" => Ok(Side::Home),
            "away" => Ok(Side::Away),
            _ => Err(Fault::UnknownWord),
        }
    }

    fn kind(&mut self) -> Result<Kind, Fault> {
        match self.word()? {
            "bat" => Ok(Kind::Bat),
            "bye" => Ok(Kind::Bye),
            "leg" => Ok(Kind::Leg),
            "wide" => Ok(Kind::Wide),
            "nb" => Ok(Kind::NoBall),
            "nbbye" => Ok(Kind::NoBallBye),
            "nbleg" => Ok(Kind::NoBallLeg),
            _ => Err(Fault::UnknownWord),
        }
    }

    fn how(&mut self) -> Result<How, Fault> {
        match self.word()? {
            "bowled" => Ok(How::Bowled),
            "caught" => Ok(How::Caught),
            "lbw" => Ok(How::Lbw),
            "stumped" => Ok(How::Stumped),
            "hitwicket" => Ok(How::HitWicket),
            "hittwice" => Ok(How::HitTwice),
            "obstructing" => Ok(How::Obstructing),
            "runout" => Ok(How::RunOut),
            _ => Err(Fault::UnknownWord),
        }
    }

    fn who(&mut self) -> Result<Who, Fault> {
        match self.word()? {
            "striker" => Ok(Who::Striker),
            "other" => Ok(Who::Other),
            _ => Err(Fault::UnknownWord),
        }
    }

    fn leave(&mut self) -> Result<Leave, Fault> {
        match self.word()? {
            "timedout" => Ok(Leave::TimedOut),
            "retiredout" => Ok(Leave::RetiredOut),
            "retiredhurt" => Ok(Leave::RetiredHurt),
            "runout" => Ok(Leave::RunOut),
            _ => Err(Fault::UnknownWord),
        }
    }

    fn cause(&mut self) -> Result<Cause, Fault> {
        match self.word()? {
            "allout" => Ok(Cause::AllOut),
            "nobatter" => Ok(Cause::NoBatter),
            "declared" => Ok(Cause::Declared),
            "forfeited" => Ok(Cause::Forfeited),
            "overs" => Ok(Cause::Overs),
            _ => Err(Fault::UnknownWord),
        }
    }
}

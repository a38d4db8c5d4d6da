//! Pen lines: what a scorer writes, as an entry or with what is wrong in it. The bytes are read in place.

use std::ops::RangeInclusive;

use crate::entry::*;

const LONGEST: usize = 96;

/// Reads a line without its newline.
pub fn read_line(line: &[u8]) -> Result<Entry, Fault> {
    if line.len() > LONGEST {
        return Err(Fault::TooLong);
    }
    let mut before = b' ';
    for byte in line {
        if !(b' '..=b'~').contains(byte) || *byte == b' ' && before == b' ' {
            return Err(Fault::Spaces);
        }
        before = *byte;
    }
    if before == b' ' {
        return Err(Fault::Spaces);
    }
    let mut words = Words { left: line };
    let entry = words.entry()?;
    if words.left.is_empty() { Ok(entry) } else { Err(Fault::Extra) }
}

/// The words of a line that weren't read yet. One space stands between them.
struct Words<'a> {
    left: &'a [u8],
}

impl<'a> Words<'a> {
    fn word(&mut self) -> Result<&'a [u8], Fault> {
        let line = self.left;
        match line.iter().position(|byte| *byte == b' ') {
            Some(end) => {
                self.left = &line[end + 1..];
                Ok(&line[..end])
            }
            None if line.is_empty() => Err(Fault::Missing),
            None => {
                self.left = &[];
                Ok(line)
            }
        }
    }

    fn number(&mut self, range: RangeInclusive<u32>) -> Result<u32, Fault> {
        let word = self.word()?;
        if word.len() > 4 || word[0] == b'0' && word.len() > 1 {
            return Err(Fault::BadNumber);
        }
        let mut number = 0;
        for byte in word {
            if !byte.is_ascii_digit() {
                return Err(Fault::BadNumber);
            }
            number = 10 * number + u32::from(byte - b'0');
        }
        if range.contains(&number) { Ok(number) } else { Err(Fault::BadNumber) }
    }

    fn player(&mut self) -> Result<usize, Fault> {
        Ok(self.number(1..=11)? as usize)
    }

    fn place(&mut self) -> Result<usize, Fault> {
        Ok(self.number(0..=MOST_PLACES as u32 - 1)? as usize)
    }

    /// Whether this word comes next. If so, it is read.
    fn takes(&mut self, word: &[u8]) -> bool {
        match self.left.strip_prefix(word) {
            Some([]) => self.left = &[],
            Some([b' ', left @ ..]) => self.left = left,
            _ => return false,
        }
        true
    }

    fn entry(&mut self) -> Result<Entry, Fault> {
        match self.word()? {
            b"fix" => Ok(Entry::Fix(self.place()?, self.next_play()?)),
            b"late" => Ok(Entry::Late(self.place()?, self.next_play()?)),
            first => Ok(Entry::Plain(self.play(first)?)),
        }
    }

    fn next_play(&mut self) -> Result<Play, Fault> {
        let first = self.word()?;
        self.play(first)
    }

    fn play(&mut self, first: &[u8]) -> Result<Play, Fault> {
        Ok(match first {
            b"ball" => Play::Ball(self.ball()?),
            b"over" => Play::Over,
            b"in" => Play::In(self.player()?),
            b"gone" => Play::Gone(self.leave()?, self.player()?),
            b"innings" => Play::Innings(self.side()?),
            b"penalty" => {
                let side = self.side()?;
                self.number(1..=42)?;
                self.number(0..=99)?;
                Play::Penalty(side)
            }
            b"swap" => Play::Swap,
            b"end" => Play::End(self.cause()?),
            b"close" => Play::Close,
            b"void" => Play::Void,
            _ => return Err(Fault::UnknownWord),
        })
    }

    fn ball(&mut self) -> Result<Ball, Fault> {
        Ok(Ball {
            bowler: self.player()?,
            kind: self.kind()?,
            ran: self.number(0..=20)?,
            short: if self.takes(b"short") { self.number(1..=20)? } else { 0 },
            boundary: self.boundary(),
            dead: self.takes(b"dead"),
            out: if self.takes(b"out") { Some(self.out()?) } else { None },
        })
    }

    fn boundary(&mut self) -> Option<Boundary> {
        let all: [(&[u8], Boundary); 3] = [(b"four", Boundary::Four), (b"six", Boundary::Six), (b"overthrow", Boundary::Overthrow)];
        all.iter().find(|(name, _)| self.takes(name)).map(|(_, it)| *it)
    }

    fn out(&mut self) -> Result<Out, Fault> {
        let how = self.how()?;
        let who = self.named(&[(b"striker", Who::Striker), (b"other", Who::Other)])?;
        self.number(0..=12)?;
        Ok(Out { how, who, crossed: self.takes(b"crossed") })
    }

    fn side(&mut self) -> Result<Side, Fault> {
        self.named(&[(b"home", Side::Home), (b"away", Side::Away)])
    }

    fn kind(&mut self) -> Result<Kind, Fault> {
        Ok(match self.word()? {
            b"bat" => Kind::Bat,
            b"bye" => Kind::Bye,
            b"leg" => Kind::Leg,
            b"wide" => Kind::Wide,
            b"nb" => Kind::NoBall,
            b"nbbye" => Kind::NoBallBye,
            b"nbleg" => Kind::NoBallLeg,
            _ => return Err(Fault::UnknownWord),
        })
    }

    fn how(&mut self) -> Result<How, Fault> {
        self.named(&[
            (b"bowled", How::Bowled),
            (b"caught", How::Caught),
            (b"lbw", How::Lbw),
            (b"stumped", How::Stumped),
            (b"hitwicket", How::HitWicket),
            (b"hittwice", How::HitTwice),
            (b"obstructing", How::Obstructing),
            (b"runout", How::RunOut),
        ])
    }

    fn leave(&mut self) -> Result<Leave, Fault> {
        self.named(&[
            (b"timedout", Leave::TimedOut),
            (b"retiredout", Leave::RetiredOut),
            (b"retiredhurt", Leave::RetiredHurt),
            (b"runout", Leave::RunOut),
        ])
    }

    fn cause(&mut self) -> Result<Cause, Fault> {
        self.named(&[
            (b"allout", Cause::AllOut),
            (b"nobatter", Cause::NoBatter),
            (b"declared", Cause::Declared),
            (b"forfeited", Cause::Forfeited),
            (b"overs", Cause::Overs),
        ])
    }

    /// What the next word stands for. It is for words that seldom come.
    fn named<T: Copy>(&mut self, names: &[(&[u8], T)]) -> Result<T, Fault> {
        let word = self.word()?;
        names.iter().find(|(name, _)| *name == word).map(|(_, it)| *it).ok_or(Fault::UnknownWord)
    }
}

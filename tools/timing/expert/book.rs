//! A book: what stands at each place after its corrections, and the score of it. The score is kept at every 64th item that
//! stands, so that a correction scores only what follows the checkpoint before it.

use crate::entry::{Entry, Play, MOST_PLACES};
use crate::rules::NotTaken;
use crate::score::Score;

const SPAN: usize = 64;

#[derive(Clone, Copy, PartialEq, Eq)]
enum Change {
    Plain,
    Fix,
    Late,
}

pub struct Book {
    /// What the entry at each place was, and where its item stands in `plays`, if it has one.
    changes: Vec<Change>,
    indexes: Vec<u16>,
    /// What stands, in the order in which it happened, and the places it belongs to.
    plays: Vec<Play>,
    places: Vec<u16>,
    /// The score before every 64th item.
    points: Vec<Score>,
    score: Score,
}

impl Book {
    pub fn new(innings_a_side: usize) -> Book {
        let score = Score::new(innings_a_side);
        let mut points = Vec::with_capacity(MOST_PLACES / SPAN + 1);
        points.push(score);
        Book {
            changes: Vec::with_capacity(MOST_PLACES),
            indexes: Vec::with_capacity(MOST_PLACES),
            plays: Vec::with_capacity(MOST_PLACES),
            places: Vec::with_capacity(MOST_PLACES),
            points,
            score,
        }
    }

    pub fn score(&self) -> &Score {
        &self.score
    }

    /// Takes an entry. Where it is refused, nothing changes.
    pub fn enter(&mut self, entry: Entry) -> Result<(), NotTaken> {
        if self.changes.len() == MOST_PLACES {
            return Err(NotTaken::PlacesFull);
        }
        let (change, index) = match entry {
            Entry::Plain(play) => (Change::Plain, self.add(play)?),
            Entry::Fix(place, play) => (Change::Fix, self.fix(place, play)?),
            Entry::Late(place, play) => (Change::Late, self.add_late(place, play)?),
        };
        self.indexes.push(index as u16);
        self.changes.push(change);
        Ok(())
    }

    fn add(&mut self, play: Play) -> Result<usize, NotTaken> {
        self.score.take(&play).map_err(NotTaken::Laws)?;
        let index = self.plays.len();
        self.plays.push(play);
        self.places.push(self.changes.len() as u16);
        if (index + 1) % SPAN == 0 {
            self.points.push(self.score);
        }
        Ok(index)
    }

    fn fix(&mut self, place: usize, play: Play) -> Result<usize, NotTaken> {
        match self.changes.get(place) {
            None => return Err(NotTaken::NoSuchPlace),
            Some(Change::Fix) => return Err(NotTaken::NotFixable),
            Some(_) => {}
        }
        let index = self.indexes[place] as usize;
        let before = std::mem::replace(&mut self.plays[index], play);
        if let Err(why) = self.rescore(index) {
            self.plays[index] = before;
            self.restore(index);
            return Err(why);
        }
        Ok(index)
    }

    fn add_late(&mut self, place: usize, play: Play) -> Result<usize, NotTaken> {
        match self.changes.get(place) {
            None => return Err(NotTaken::NoSuchPlace),
            Some(Change::Plain) => {}
            Some(_) => return Err(NotTaken::NotAnchor),
        }
        let after = self.indexes[place] as usize + 1;
        let is_late = |place: &&u16| self.changes[**place as usize] == Change::Late;
        let index = after + self.places[after..].iter().take_while(is_late).count();
        self.plays.insert(index, play);
        self.places.insert(index, self.changes.len() as u16);
        if let Err(why) = self.rescore(index) {
            self.plays.remove(index);
            self.places.remove(index);
            self.restore(index);
            return Err(why);
        }
        for later in &self.places[index + 1..] {
            self.indexes[*later as usize] += 1;
        }
        Ok(index)
    }

    /// Scores anew what stands from the checkpoint before this item on.
    fn rescore(&mut self, index: usize) -> Result<(), NotTaken> {
        let first = index / SPAN;
        let mut score = self.points[first];
        self.points.truncate(first);
        for (part, plays) in self.plays.chunks(SPAN).enumerate().skip(first) {
            self.points.push(score);
            for (nth, play) in plays.iter().enumerate() {
                score.take(play).map_err(|why| NotTaken::Later(self.places[part * SPAN + nth] as usize, why))?;
            }
        }
        if self.plays.len() % SPAN == 0 {
            self.points.push(score);
        }
        self.score = score;
        Ok(())
    }

    /// Scores again what stood, once a correction was refused.
    fn restore(&mut self, index: usize) {
        let _ = self.rescore(index);
    }
}

//! A book: the entries that were taken, and the score of what stands after their corrections.

use crate::entry::{Entry, Play, MOST_PLACES};
use crate::match_state::Match;
use crate::rules::NotTaken;

/// What stands of a place.
#[derive(Clone, Copy, Debug)]
struct Item {
    place: usize,
    play: Play,
}

pub struct Book {
    innings_a_side: usize,
    entries: Vec<Entry>,
    /// In the order in which it happened. What was struck out is `void`.
    items: Vec<Item>,
    score: Match,
}

impl Book {
    pub fn new(innings_a_side: usize) -> Book {
        Book {
            innings_a_side,
            entries: Vec::new(),
            items: Vec::new(),
            score: Match::new(innings_a_side),
        }
    }

    pub fn score(&self) -> &Match {
        &self.score
    }

    /// Takes an entry. Where it is refused, nothing changes.
    pub fn enter(&mut self, entry: Entry) -> Result<(), NotTaken> {
        if self.entries.len() == MOST_PLACES {
            return Err(NotTaken::PlacesFull);
        }
        match entry {
            Entry::Plain(play) => {
                self.score.take(&play).map_err(NotTaken::Laws)?;
                self.items.push(Item {
                    place: self.entries.len(),
                    play,
                });
            }
            Entry::Fix(place, play) => self.fix(place, play)?,
            Entry::Late(place, play) => self.add_late(place, play)?,
        }
        self.entries.push(entry);
        Ok(())
    }

    fn fix(&mut self, place: usize, play: Play) -> Result<(), NotTaken> {
        if matches!(self.entry(place)?, Entry::Fix(..)) {
            return Err(NotTaken::NotFixable);
        }
        let mut items = self.items.clone();
        let index = index_of(&items, place);
        items[index].play = play;
        self.rescore(items)
    }

    fn add_late(&mut self, place: usize, play: Play) -> Result<(), NotTaken> {
        if !matches!(self.entry(place)?, Entry::Plain(_)) {
            return Err(NotTaken::NotAnchor);
        }
        let mut items = self.items.clone();
        let mut index = index_of(&items, place) + 1;
        while index < items.len() && self.is_late(items[index].place) {
            index += 1;
        }
        items.insert(
            index,
            Item {
                place: self.entries.len(),
                play,
            },
        );
        self.rescore(items)
    }

    fn entry(&self, place: usize) -> Result<Entry, NotTaken> {
        self.entries
            .get(place)
            .copied()
            .ok_or(NotTaken::NoSuchPlace)
    }

    fn is_late(&self, place: usize) -> bool {
        matches!(self.entries[place], Entry::Late(..))
    }

    /// Takes what is to stand from now on, if all of it is allowed.
    fn rescore(&mut self, items: Vec<Item>) -> Result<(), NotTaken> {
        let mut score = Match::new(self.innings_a_side);
        for item in &items {
            score
                .take(&item.play)
                .map_err(|why| NotTaken::Later(item.place, why))?;
        }
        self.items = items;
        self.score = score;
        Ok(())
    }
}

/// Where the item of a place stands. Each place but those of corrections has one.
fn index_of(items: &[Item], place: usize) -> usize {
    items
        .iter()
        .position(|item| item.place == place)
        .expect("a place of play has an item")
}

//! Pages that were read lately, by where they stand in the files.

use crate::page::{PAGE, Page};
use std::collections::HashMap;

/// How many are kept at most.
const MOST_KEPT: usize = 256;

/// No frame.
const NONE: usize = usize::MAX;

struct Frame {
    place: u64,
    page: Box<Page>,
    /// The frames that were used just after this one, and just before it.
    newer: usize,
    older: usize,
}

/// At most `MOST_KEPT` pages. The one that was used least recently goes for a further one.
pub struct Cache {
    frames: Vec<Frame>,
    by_place: HashMap<u64, usize>,
    newest: usize,
    oldest: usize,
}

impl Cache {
    pub fn new() -> Cache {
        Cache {
            frames: Vec::new(),
            by_place: HashMap::new(),
            newest: NONE,
            oldest: NONE,
        }
    }

    /// The page of a place, as `read` gives it where it isn't kept. A page that isn't there isn't kept either.
    pub fn get_or<E>(
        &mut self,
        place: u64,
        read: impl FnOnce(&mut Page) -> Result<bool, E>,
    ) -> Result<Option<&Page>, E> {
        if let Some(&frame) = self.by_place.get(&place) {
            self.unlink(frame);
            self.link(frame);
            return Ok(Some(&self.frames[frame].page));
        }
        let frame = self.free_frame();
        if !read(&mut self.frames[frame].page)? {
            return Ok(None);
        }
        self.frames[frame].place = place;
        self.by_place.insert(place, frame);
        self.unlink(frame);
        self.link(frame);
        Ok(Some(&self.frames[frame].page))
    }

    /// A frame whose page isn't kept any longer. It is the first to be taken again.
    fn free_frame(&mut self) -> usize {
        if self.frames.len() < MOST_KEPT {
            let frame = self.frames.len();
            self.frames.push(Frame {
                place: 0,
                page: Box::new([0; PAGE]),
                newer: self.oldest,
                older: NONE,
            });
            match self.frames.get_mut(self.oldest) {
                Some(last) => last.older = frame,
                None => self.newest = frame,
            }
            self.oldest = frame;
            return frame;
        }
        let place = self.frames[self.oldest].place;
        if self.by_place.get(&place) == Some(&self.oldest) {
            self.by_place.remove(&place);
        }
        self.oldest
    }

    fn unlink(&mut self, frame: usize) {
        let (newer, older) = (self.frames[frame].newer, self.frames[frame].older);
        match self.frames.get_mut(newer) {
            Some(newer) => newer.older = older,
            None => self.newest = older,
        }
        match self.frames.get_mut(older) {
            Some(older) => older.newer = newer,
            None => self.oldest = newer,
        }
    }

    fn link(&mut self, frame: usize) {
        let older = self.newest;
        self.frames[frame].newer = NONE;
        self.frames[frame].older = older;
        match self.frames.get_mut(older) {
            Some(older) => older.newer = frame,
            None => self.oldest = frame,
        }
        self.newest = frame;
    }

    /// Lets all pages go.
    pub fn forget(&mut self) {
        self.by_place.clear();
    }
}

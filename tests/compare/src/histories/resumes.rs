//! The moves of a history that save and resume.

use super::Run;
use crate::beside::compare_restore;
use crate::causal::Watch;
use crate::damage;
use crate::events::planted_event;
use crate::tally::Tally;
use reference::history::History;
use reference::image;
use reference::plot::Plot;

/// A save of the list: the bytes, the plot and the history as they stood, in both tellings.
pub(super) struct Kept {
    image: Vec<u8>,
    plot: Plot,
    history: History,
    watch: Watch,
}

impl Run {
    pub(super) fn save(&mut self, tally: &mut Tally) {
        let image = self.beside.save(&mut self.random, tally);
        self.kept.push(Kept {
            image,
            plot: self.beside.plot.clone(),
            history: self.beside.history.clone(),
            watch: self.beside.watch.clone(),
        });
    }

    /// Resumes any image that was saved.
    pub(super) fn resume(&mut self, tally: &mut Tally) {
        if self.kept.is_empty() {
            return;
        }
        let chosen = self.random.below(self.kept.len());
        let same_bytes = |kept: &Kept| kept.image == self.kept[chosen].image;
        let last = self.kept.iter().rposition(same_bytes);
        self.resume_kept(last.expect("the chosen one at least"), tally);
    }

    /// Document 01, 7.7: a resume returns to the history of the youngest save with its bytes. `last` is that save.
    fn resume_kept(&mut self, last: usize, tally: &mut Tally) {
        let kept = &self.kept[last];
        self.beside.resume(&kept.image, tally);
        assert_eq!(self.beside.plot, kept.plot, "the plot at the save");
        self.beside.history = kept.history.clone();
        self.beside.watch = kept.watch.clone();
        self.assert_history_agrees();
        self.beside.check_quiet(tally);
    }

    /// Document 01, 7.4: bytes that a resume refuses; the tables stay.
    pub(super) fn bad_resume(&mut self, tally: &mut Tally) {
        let mut bytes = image::write(&self.beside.plot);
        if self.random.chance(20) {
            damage::damage_image_times(&mut bytes, &self.beside.plot, &mut self.random);
        } else {
            damage::damage_image(&mut bytes, &self.beside.plot, &mut self.random);
        }
        let lent = &self.beside.tables;
        if image::resume(&bytes, lent.nodes.len(), lent.channels.len()).is_err() {
            compare_restore(&bytes, lent.clone(), tally);
        }
    }

    /// Document 01, 7.14: after a resume, the same events give the same answers and the same tables as from the save.
    pub(super) fn there_and_back(&mut self, tally: &mut Tally) {
        self.save(tally);
        let last = self.kept.len() - 1;
        let mut list = Vec::new();
        for _ in 0..self.random.between(1, 30) {
            let event = planted_event(&self.beside.plot, &mut self.random);
            list.push((event, self.beside.step(event, tally)));
        }
        let end = self.beside.tables.clone();
        self.resume_kept(last, tally);
        for (event, answer) in list {
            assert_eq!(self.beside.step(event, tally), answer, "after a resume");
        }
        assert_eq!(self.beside.tables, end, "after a resume");
        self.left -= 10;
        tally.note("lists repeated after a resume");
    }
}

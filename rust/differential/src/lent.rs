//! The words lent for results, or for a sheet in the other unit. They are filled with a pattern before the call, so that
//! afterwards every written word can be told from an untouched one.

use crate::answer::LINE_WORDS;
use crate::library::Reply;

/// Words after the lent ones that are looked at too: nothing may be written past the room.
const GUARD: usize = 8;

/// The highest bit. No right result word reaches it, no word of an accepted sheet does, and every word of the pattern has
/// it: a word that was left out is always seen.
const HIGH: u64 = 1 << 63;

/// The word of the pattern at one place: different at every place.
fn pattern(place: usize) -> u64 {
    HIGH | (place as u64).wrapping_mul(0x9e37_79b9_7f4a_7c15) & (HIGH - 1)
}

/// Words to lend.
#[derive(Debug, Clone, Default, PartialEq, Eq)]
pub struct Lent {
    words: Vec<u64>,
    room: usize,
}

impl Lent {
    /// Fills the words with the pattern, lends so many of them to a weighing or a conversion and gives its reply.
    pub fn lend<R>(&mut self, room: usize, call: impl FnOnce(&mut [u64]) -> R) -> R {
        self.words.clear();
        self.words.extend((0..room + GUARD).map(pattern));
        self.room = room;
        call(&mut self.words[..room])
    }

    /// The first `count` of the lent words, or fewer where there are no more.
    pub fn first(&self, count: u64) -> &[u64] {
        &self.words[..self.room.min(count as usize)]
    }

    /// The first `count` lines of the lent words, or fewer where the room holds no more.
    pub fn lines(&self, count: u64) -> &[[u64; LINE_WORDS]] {
        let (lines, _) = self.words[..self.room].as_chunks::<LINE_WORDS>();
        &lines[..lines.len().min(count as usize)]
    }

    /// The lines that a reply says were written: none on a refusal.
    pub fn lines_of(&self, reply: &Reply) -> &[[u64; LINE_WORDS]] {
        match reply.number {
            0 => self.lines(reply.count),
            _ => &[],
        }
    }

    /// The first place at or after `start` whose word is no longer that of the pattern, with that word.
    pub fn touched(&self, start: usize) -> Option<(usize, u64)> {
        let mut places = (start..).zip(self.words.iter().copied().skip(start));
        places.find(|&(place, word)| word != pattern(place))
    }
}

#[cfg(test)]
mod tests {
    use super::*;
    use crate::answer::refusal;

    /// A reply with two lines.
    const REPLY: Reply = Reply::accepting(2, 5);

    /// A word written inside the room or just after it is found at its place; one before the start is not looked at.
    #[test]
    fn written_words_are_found() {
        let mut lent = Lent::default();
        let weigh = |results: &mut [u64]| {
            results[3] = 7;
            REPLY
        };
        assert_eq!(lent.lend(10, weigh), REPLY);
        assert_eq!(lent.touched(0), Some((3, 7)));
        assert_eq!(lent.touched(4), None);
        lent.words[10] = 8;
        assert_eq!(lent.touched(4), Some((10, 8)));
    }

    /// A reply's lines are as many as its count says and the room holds; a refusal has none, whatever its count says.
    #[test]
    fn lines_follow_the_reply() {
        let mut lent = Lent::default();
        let lengths = [2 * LINE_WORDS - 1, 2 * LINE_WORDS, 4 * LINE_WORDS].map(|room| {
            let reply = lent.lend(room, |_| REPLY);
            lent.lines_of(&reply).len()
        });
        assert_eq!(lengths, [1, 2, 2]);
        let mut refused = REPLY;
        refused.number = refusal::ROOM;
        assert!(lent.lines_of(&refused).is_empty());
    }

    /// The first words are as many as are asked for and lent.
    #[test]
    fn first_words_keep_to_the_room() {
        let mut lent = Lent::default();
        lent.lend(3, |words| words.copy_from_slice(&[7, 8, 9]));
        assert_eq!([0, 2, 3].map(|count| lent.first(count).len()), [0, 2, 3]);
        assert_eq!([lent.first(4), lent.first(u64::MAX)], [[7, 8, 9]; 2]);
    }

    /// The pattern differs in every place that is ever lent.
    #[test]
    fn pattern_differs_everywhere() {
        let mut words: Vec<u64> = (0..9_000).map(pattern).collect();
        words.sort_unstable();
        words.dedup();
        assert_eq!(words.len(), 9_000);
    }
}

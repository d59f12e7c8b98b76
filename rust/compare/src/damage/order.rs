//! Lists in another order, with all links, heads and tails right: nothing but the order is wrong then. Where the members
//! that changed places have equal sizes, not even that is.

use super::{field, header, Victim};
use crate::random::Random;
use crate::side::Action;
use crate::view::{bins, list, NEXT_IN_BIN, PREVIOUS_IN_BIN, SIZE};
use kruzhvela::flat::{HEADS, TAILS};

/// A bin with its list.
type Listed = (usize, Vec<u32>);

impl Victim<'_> {
    /// The lists with two members or more.
    fn long_lists(&self) -> Vec<Listed> {
        let lists = (0..bins(self.record)).map(|bin| (bin, list(self.region, self.record, bin)));
        lists.filter(|(_, list)| list.len() > 1).collect()
    }

    fn equal(&self, one: u32, other: u32) -> bool {
        self.word(one, SIZE) == self.word(other, SIZE)
    }

    /// Mostly a list with members of different sizes, if there is one.
    fn long_list(&self, random: &mut Random) -> Option<Listed> {
        let long = self.long_lists();
        let is_mixed = |(_, list): &&Listed| list.iter().any(|&place| !self.equal(place, list[0]));
        let mixed: Vec<&Listed> = long.iter().filter(is_mixed).collect();
        let any = |lists: &[&Listed], random: &mut Random| lists[random.below(lists.len() as u32) as usize].clone();
        match long.len() {
            0 => None,
            _ if mixed.is_empty() || random.once_in(8) => Some(any(&long.iter().collect::<Vec<_>>(), random)),
            _ => Some(any(&mixed, random)),
        }
    }

    /// False for a word that is outside the region or is so already.
    fn changes(&self, store: &Action) -> bool {
        match *store {
            Action::Write { index, value } => self.region.get(index).is_some_and(|&word| word != value),
            Action::Record { index, value } => self.record[index] != value,
            _ => false,
        }
    }

    /// Stores that link the members of a list in this order.
    fn linked(&self, bin: usize, list: &[u32]) -> Vec<Action> {
        let (first, last) = (list[0], list[list.len() - 1]);
        let inner = list
            .windows(2)
            .flat_map(|pair| [header(pair[0], NEXT_IN_BIN, pair[1]), header(pair[1], PREVIOUS_IN_BIN, pair[0])]);
        let ends = [header(first, PREVIOUS_IN_BIN, 0), header(last, NEXT_IN_BIN, 0)];
        let stores = inner.chain(ends).chain([field(HEADS + bin, first), field(TAILS + bin, last)]);
        stores.filter(|store| self.changes(store)).collect()
    }

    /// Two neighbours of a list change places, equal ones or the last two among them; or a member moves; or the list is
    /// turned round. None if no list has two members.
    pub fn reordered(&self, random: &mut Random) -> Option<Vec<Action>> {
        let (bin, mut list) = self.long_list(random)?;
        let last = list.len() - 1;
        let equal: Vec<usize> = (0..last).filter(|&at| self.equal(list[at], list[at + 1])).collect();
        let (from, to) = (random.below(last as u32 + 1) as usize, random.below(last as u32 + 1) as usize);
        match random.below(8) {
            0 | 1 if !equal.is_empty() => {
                let at = random.of(&equal);
                list.swap(at, at + 1);
            }
            0..=3 => list.swap(from.min(last - 1), from.min(last - 1) + 1),
            4 => list.swap(last - 1, last),
            5 | 6 => {
                let member = list.remove(from);
                list.insert(to, member);
            }
            _ => list.reverse(),
        }
        Some(self.linked(bin, &list))
    }
}

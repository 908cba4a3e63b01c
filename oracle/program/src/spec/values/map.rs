//! Stand-in for maps: no case has one.
use super::Literal;

type Entry = (Literal, Option<Literal>);

#[derive(Clone, Debug, PartialEq, Eq, Hash)]
pub struct Map {
    entries: Vec<Entry>,
}

impl Map {
    pub fn len(&self) -> usize {
        self.entries.len()
    }
}

impl FromIterator<Entry> for Map {
    fn from_iter<I: IntoIterator<Item = Entry>>(entries: I) -> Self {
        let entries = entries.into_iter().collect();
        Map { entries }
    }
}

impl IntoIterator for Map {
    type Item = Entry;
    type IntoIter = std::vec::IntoIter<Entry>;

    fn into_iter(self) -> Self::IntoIter {
        self.entries.into_iter()
    }
}

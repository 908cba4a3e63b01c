//! Of the map both ways, the way that aliases are looked up; no case has one.
use std::borrow::Borrow;
use std::collections::HashMap;
use std::hash::Hash;

#[derive(Clone, Debug)]
pub struct BiHashMap<L, R>(HashMap<L, R>);

impl<L, R> Default for BiHashMap<L, R> {
    fn default() -> Self {
        BiHashMap(HashMap::new())
    }
}

impl<L: Eq + Hash, R> BiHashMap<L, R> {
    pub fn get_by_left<Q: Eq + Hash + ?Sized>(&self, left: &Q) -> Option<&R>
    where
        L: Borrow<Q>,
    {
        self.0.get(left)
    }
}

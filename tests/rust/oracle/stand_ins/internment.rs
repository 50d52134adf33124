// Stands in for the crate internment. A node is equal to another by value; its hash is computed once, when it is made,
// from the hashes that its children keep. Equal nodes stay apart, unless `share` makes them one.
use std::{
    any::Any,
    cell::RefCell,
    collections::{HashMap, hash_map::DefaultHasher},
    fmt,
    hash::{Hash, Hasher},
    ops::Deref,
    sync::Arc,
};

// The nodes that were made since `share`, of whichever type, by their hash.
type Shared = HashMap<u64, Vec<Box<dyn Any>>>;

thread_local! {
    static SHARED: RefCell<Option<Shared>> = const { RefCell::new(None) };
}

// From now on a new node that is equal to an earlier one is that one; or all stay apart again.
pub fn share(is_wanted: bool) {
    SHARED.set(is_wanted.then(HashMap::new));
}

struct Inner<T> {
    hash: u64,
    value: T,
}

pub struct ArcIntern<T>(Arc<Inner<T>>);

impl<T: Hash + Eq + 'static> ArcIntern<T> {
    pub fn new(value: T) -> Self {
        let mut hasher = DefaultHasher::new();
        value.hash(&mut hasher);
        let new = Self(Arc::new(Inner { hash: hasher.finish(), value }));
        SHARED.with_borrow_mut(|shared| shared.as_mut().and_then(|all| new.first(all))).unwrap_or(new)
    }

    // The earlier node that is equal to this one; if there is none this one is kept.
    fn first(&self, all: &mut Shared) -> Option<Self> {
        let bucket = all.entry(self.0.hash).or_default();
        let earlier = bucket.iter().filter_map(|any| any.downcast_ref::<Self>()).find(|one| *one == self).cloned();
        if earlier.is_none() {
            bucket.push(Box::new(self.clone()));
        }
        earlier
    }
}

impl<T> ArcIntern<T> {
    // Whether the two are one node, not only equal ones.
    pub fn is_same(&self, other: &Self) -> bool {
        Arc::ptr_eq(&self.0, &other.0)
    }

    // Where the node lies, as long as it lives.
    pub fn address(&self) -> usize {
        Arc::as_ptr(&self.0) as usize
    }
}

impl<T: Hash + Eq + 'static> From<T> for ArcIntern<T> {
    fn from(value: T) -> Self {
        Self::new(value)
    }
}

impl<T> Clone for ArcIntern<T> {
    fn clone(&self) -> Self {
        Self(self.0.clone())
    }
}

impl<T> Deref for ArcIntern<T> {
    type Target = T;
    fn deref(&self) -> &T {
        &self.0.value
    }
}

impl<T> AsRef<T> for ArcIntern<T> {
    fn as_ref(&self) -> &T {
        &self.0.value
    }
}

impl<T: PartialEq> PartialEq for ArcIntern<T> {
    fn eq(&self, other: &Self) -> bool {
        self.is_same(other) || self.0.hash == other.0.hash && self.0.value == other.0.value
    }
}

impl<T: Eq> Eq for ArcIntern<T> {}

impl<T> Hash for ArcIntern<T> {
    fn hash<H: Hasher>(&self, state: &mut H) {
        state.write_u64(self.0.hash);
    }
}

impl<T: fmt::Debug> fmt::Debug for ArcIntern<T> {
    fn fmt(&self, f: &mut fmt::Formatter) -> fmt::Result {
        self.0.value.fmt(f)
    }
}

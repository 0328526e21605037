//! Where sources come from.

use crate::source::Source;
use crate::table::Table;
use std::collections::hash_map::{HashMap, RandomState};
use std::fmt::{self, Debug, Display, Formatter};
use std::hash::{BuildHasher, Hash};
use std::path::{Path, PathBuf};
use std::{fs, io};

/// Sources by their ids.
pub trait Cache<Id: ?Sized> {
    /// What holds the text of a source.
    type Storage: AsRef<str>;

    /// The source of an id, or why it can't be had.
    fn fetch(&mut self, id: &Id) -> Result<&Source<Self::Storage>, impl Debug>;

    /// The name that an id is shown under, if it has one.
    fn display<'a>(&self, id: &'a Id) -> Option<impl Display + 'a>;
}

impl<C: Cache<Id>, Id: ?Sized> Cache<Id> for &mut C {
    type Storage = C::Storage;

    fn fetch(&mut self, id: &Id) -> Result<&Source<C::Storage>, impl Debug> {
        C::fetch(self, id)
    }

    fn display<'a>(&self, id: &'a Id) -> Option<impl Display + 'a> {
        C::display(self, id)
    }
}

impl<C: Cache<Id>, Id: ?Sized> Cache<Id> for Box<C> {
    type Storage = C::Storage;

    fn fetch(&mut self, id: &Id) -> Result<&Source<C::Storage>, impl Debug> {
        C::fetch(self, id)
    }

    fn display<'a>(&self, id: &'a Id) -> Option<impl Display + 'a> {
        C::display(self, id)
    }
}

/// What a source that has no name is shown under: nothing.
const NO_NAME: Option<&str> = None;

impl<I: AsRef<str>> Cache<()> for Source<I> {
    type Storage = I;

    fn fetch(&mut self, _: &()) -> Result<&Source<I>, impl Debug> {
        Ok::<_, ()>(&*self)
    }

    fn display<'a>(&self, _: &'a ()) -> Option<impl Display + 'a> {
        NO_NAME
    }
}

impl<I: AsRef<str>> Cache<()> for &'_ Source<I> {
    type Storage = I;

    fn fetch(&mut self, _: &()) -> Result<&Source<I>, impl Debug> {
        Ok::<_, ()>(*self)
    }

    fn display<'a>(&self, _: &'a ()) -> Option<impl Display + 'a> {
        NO_NAME
    }
}

impl<I: AsRef<str>, Id: Display + Eq> Cache<Id> for (Id, Source<I>) {
    type Storage = I;

    fn fetch(&mut self, id: &Id) -> Result<&Source<I>, impl Debug> {
        if *id == self.0 { Ok(&self.1) } else { Err(not_there(id)) }
    }

    fn display<'a>(&self, id: &'a Id) -> Option<impl Display + 'a> {
        Some(id)
    }
}

impl<I: AsRef<str>, Id: Display + Eq> Cache<Id> for (Id, &'_ Source<I>) {
    type Storage = I;

    fn fetch(&mut self, id: &Id) -> Result<&Source<I>, impl Debug> {
        if *id == self.0 { Ok(self.1) } else { Err(not_there(id)) }
    }

    fn display<'a>(&self, id: &'a Id) -> Option<impl Display + 'a> {
        Some(id)
    }
}

/// What is said of an id that has no source.
fn not_there<Id: Display>(id: &Id) -> String {
    format!("Failed to fetch source '{id}'")
}

/// A cache of files, whose ids are their paths. A file is read once.
#[derive(Clone, Debug, Default)]
pub struct FileCache {
    files: HashMap<PathBuf, Source>,
}

impl Cache<Path> for FileCache {
    type Storage = String;

    fn fetch(&mut self, path: &Path) -> Result<&Source, impl Debug> {
        if !self.files.contains_key(path) {
            self.files.insert(path.to_path_buf(), Source::from(fs::read_to_string(path)?));
        }
        Ok::<_, io::Error>(&self.files[path])
    }

    fn display<'a>(&self, path: &'a Path) -> Option<impl Display + 'a> {
        Some(path.display())
    }
}

/// A cache over a function, which is called once for each id whose source it has.
#[derive(Clone)]
pub struct FnCache<Id, F, I>
where
    I: AsRef<str>,
{
    ids: Vec<Id>,
    /// The source of each id.
    sources: Vec<Source<I>>,
    /// The numbers of the ids, by their hashes.
    table: Table,
    hashing: RandomState,
    /// The number behind that of the source which was fetched last. (Many reports ask for sources in the order in which
    /// these were added.)
    next: usize,
    get: F,
}

impl<Id, F, I> FnCache<Id, F, I>
where
    I: AsRef<str>,
{
    /// A cache over this function.
    pub fn new(get: F) -> FnCache<Id, F, I> {
        let hashing = RandomState::new();
        FnCache { ids: Vec::new(), sources: Vec::new(), table: Table::default(), hashing, next: 0, get }
    }

    /// The cache with these sources, in place of those that it has under the same ids.
    pub fn with_sources(mut self, sources: HashMap<Id, Source<I>>) -> FnCache<Id, F, I>
    where
        Id: Eq + Hash,
    {
        for (id, source) in sources {
            self.set(id, source);
        }
        self
    }

    /// Sets the source of an id.
    fn set(&mut self, id: Id, source: Source<I>)
    where
        Id: Eq + Hash,
    {
        match self.number_of(&id) {
            Some(number) => self.sources[number] = source,
            None => self.add(id, source),
        }
    }

    /// Adds the source of an id that has none.
    fn add(&mut self, id: Id, source: Source<I>)
    where
        Id: Hash,
    {
        self.table.add(self.hashing.hash_one(&id));
        self.ids.push(id);
        self.sources.push(source);
    }

    /// The number of an id's source, which is got from the function if there is none.
    #[inline(never)] // (so that `fetch` stays short)
    fn numbered<E>(&mut self, id: &Id) -> Result<usize, E>
    where
        Id: Eq + Hash + Clone,
        F: FnMut(&Id) -> Result<I, E>,
    {
        if let Some(number) = self.number_of(id) {
            return Ok(number);
        }
        let text = (self.get)(id)?;
        self.add(id.clone(), Source::from(text));
        Ok(self.sources.len() - 1)
    }

    /// The number of an id's source, if it has one.
    fn number_of(&self, id: &Id) -> Option<usize>
    where
        Id: Eq + Hash,
    {
        self.table.find(self.hashing.hash_one(id), |number| self.ids[number] == *id)
    }
}

/// The fields are those of `ariadne` 0.6.0.
impl<Id: Debug, F: Debug, I: AsRef<str> + Debug> Debug for FnCache<Id, F, I> {
    fn fmt(&self, f: &mut Formatter<'_>) -> fmt::Result {
        let sources = Sources { ids: &self.ids, sources: &self.sources };
        f.debug_struct("FnCache").field("sources", &sources).field("get", &self.get).finish()
    }
}

/// Sources by their ids.
struct Sources<'a, Id, I: AsRef<str>> {
    ids: &'a [Id],
    sources: &'a [Source<I>],
}

impl<Id: Debug, I: AsRef<str> + Debug> Debug for Sources<'_, Id, I> {
    fn fmt(&self, f: &mut Formatter<'_>) -> fmt::Result {
        f.debug_map().entries(self.ids.iter().zip(self.sources)).finish()
    }
}

impl<Id: Display + Hash + Eq + Clone, F, I, E> Cache<Id> for FnCache<Id, F, I>
where
    I: AsRef<str>,
    E: Debug,
    F: for<'a> FnMut(&'a Id) -> Result<I, E>,
{
    type Storage = I;

    fn fetch(&mut self, id: &Id) -> Result<&Source<I>, impl Debug> {
        let number = if self.ids.get(self.next) == Some(id) { self.next } else { self.numbered(id)? };
        self.next = number + 1;
        Ok::<_, E>(&self.sources[number])
    }

    fn display<'a>(&self, id: &'a Id) -> Option<impl Display + 'a> {
        Some(id)
    }
}

/// A cache of these texts by their ids. The last text of an id counts.
pub fn sources<Id, S, I>(iter: I) -> impl Cache<Id>
where
    Id: Display + Hash + PartialEq + Eq + Clone + 'static,
    S: AsRef<str>,
    I: IntoIterator<Item = (Id, S)>,
{
    let mut cache = FnCache::new(|id: &Id| Err(not_there(id)));
    for (id, text) in iter {
        cache.set(id, Source::from(text));
    }
    cache
}

#[cfg(test)]
mod tests {
    use super::{Cache, FnCache};
    use crate::Source;
    use std::collections::HashMap;

    type Get = fn(&u8) -> Result<String, u8>;

    fn text_of(id: &u8) -> Result<String, u8> {
        if *id < 9 { Ok(id.to_string()) } else { Err(*id) }
    }

    /// The text that a cache has of an id.
    fn fetched(cache: &mut FnCache<u8, Get, String>, id: u8) -> Option<String> {
        cache.fetch(&id).ok().map(|source| source.text().to_string())
    }

    #[test]
    fn a_source_is_replaced_by_another_of_its_id() {
        let held = |texts: &[(u8, &str)]| -> HashMap<u8, Source> {
            texts.iter().map(|(id, text)| (*id, Source::from(text.to_string()))).collect()
        };
        let cache = FnCache::new(text_of as Get).with_sources(held(&[(1, "a"), (2, "b")]));
        let mut cache = cache.with_sources(held(&[(2, "c"), (9, "d")]));
        for _ in 0..2 {
            let texts = [1, 2, 3, 9, 10].map(|id| fetched(&mut cache, id));
            assert_eq!(texts.map(|text| text.unwrap_or_default()), ["a", "c", "3", "d", ""]);
        }
    }

    #[test]
    fn debug_texts_are_those_of_ariadne() {
        let mut cache = FnCache::new(text_of as Get);
        fetched(&mut cache, 3);
        let told = format!("{cache:?}");
        assert!(told.starts_with("FnCache { sources: {3: Source { text: \"3\", lines: ["), "{told}");
        assert!(told.contains("display_line_offset: 0 }}, get: 0x"), "{told}");
    }
}

//! The names of the builder and its list of parameters (crates/builder/specs/Names.antt and
//! Registry.antt), as far as a walk over a set needs them to find where a build stumbles.

use crate::model::Owner;

/// What the builder refuses with 17: a name that is too long, or one entry too many.
#[derive(Debug, PartialEq)]
pub enum TooMuch {
    Name(String),
    Entries,
}

/// The most bytes of a name or text, and the most entries of a registry or arguments of a call.
pub const MOST_BYTES: usize = 255;
pub const MOST_ENTRIES: usize = 512;

struct Entry {
    owner: String,
    keys: Vec<String>,
    name: String,
}

/// The parameters in order of entry. A key belongs to the first entry of its owner that has it.
#[derive(Default)]
pub struct Registry {
    entries: Vec<Entry>,
}

impl Registry {
    fn find(&self, owner: &str, key: &str) -> Option<&Entry> {
        let has = |e: &&Entry| e.owner == owner && e.keys.iter().any(|k| k == key);
        self.entries.iter().find(has)
    }

    /// The name of the parameter that a path has under an owner.
    pub fn lookup(&self, owner: &str, path: &str) -> Option<&str> {
        let entry = self.find(owner, &normal_path(owner, path))?;
        Some(&entry.name)
    }

    fn enter(&mut self, entry: Entry) -> Result<(), TooMuch> {
        if entry.name.len() > MOST_BYTES {
            return Err(TooMuch::Name(entry.name));
        }
        if self.entries.len() >= MOST_ENTRIES {
            return Err(TooMuch::Entries);
        }
        self.entries.push(entry);
        Ok(())
    }

    pub fn ensure(&mut self, owner: &str, path: &str) -> Result<(), TooMuch> {
        let key = normal_path(owner, path);
        if self.find(owner, &key).is_some() {
            return Ok(());
        }
        let alias = alias(path, &key);
        self.enter(Entry {
            owner: owner.to_string(),
            keys: [Some(key), alias].into_iter().flatten().collect(),
            name: canonical_name(owner, path),
        })
    }

    pub fn extend(&mut self, owners: &[Owner]) -> Result<(), TooMuch> {
        for owner in owners {
            for path in &owner.paths {
                self.ensure(&owner.name, path)?;
            }
        }
        Ok(())
    }

    /// Enters a tag that the builder makes, under a key and a name of its own.
    pub fn add_made(&mut self, owner: &str, key: &str, name: String) -> Result<(), TooMuch> {
        let key = normal_path(owner, key);
        match self.find(owner, &key) {
            Some(_) => Ok(()),
            None => self.enter(Entry {
                owner: owner.to_string(),
                keys: vec![key],
                name,
            }),
        }
    }
}

/// What stands behind an owner and a dot at the beginning of a path.
fn stripped<'p>(owner: &str, path: &'p str) -> Option<&'p str> {
    path.strip_prefix(owner)?.strip_prefix('.')
}

fn normal_path(owner: &str, path: &str) -> String {
    match path == owner {
        true => String::new(),
        false => stripped(owner, path).unwrap_or(path).to_string(),
    }
}

pub fn canonical_name(owner: &str, path: &str) -> String {
    match path.is_empty() || path == owner {
        true => owner.to_string(),
        false => format!("{owner}.{}", stripped(owner, path).unwrap_or(path)),
    }
}

/// What stands behind the last `::` of a path, unless it is empty or the normal path.
fn alias(path: &str, normal: &str) -> Option<String> {
    let (_, behind) = path.rsplit_once("::")?;
    (!behind.is_empty() && behind != normal).then(|| behind.to_string())
}

/// A path under the name of an owner's parent.
pub fn parent_path(owner: &str, path: &str) -> Option<String> {
    let (parent, _) = owner.rsplit_once("::")?;
    Some(format!("{parent}::{path}"))
}

/// A path inside the elements of an array.
pub fn prefixed(prefix: &str, path: &str) -> String {
    match (prefix.is_empty(), path.is_empty()) {
        (true, _) => path.to_string(),
        (false, true) => prefix.trim_end_matches('.').to_string(),
        (false, false) => format!("{prefix}{path}"),
    }
}

/// The owner that an array takes which is no field: the one named by what stands behind the last
/// `::` of its name, or by `array`; then the one of its name; then the first.
pub fn array_owner<'o>(name: &str, owners: &'o [Owner]) -> Option<&'o Owner> {
    let by = |wanted: &str| owners.iter().find(|o| o.name == wanted);
    by(array_key(name))
        .or_else(|| by(name))
        .or_else(|| owners.first())
}

pub fn array_key(name: &str) -> &str {
    name.rsplit_once("::").map_or("array", |(_, behind)| behind)
}

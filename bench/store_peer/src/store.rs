//! A store of documents.

use crate::Failure;
use crate::building;
use crate::catalog::{Catalog, Entry};
use crate::editing::{Change, Stop, edit, remove_document};
use crate::header::Header;
use crate::partition;
use crate::records::Records;
use crate::rules::Asked;
use crate::shape::Shape;
use crate::tree::Tree;

/// A command that changes the store begins with a checkpoint where the log has more bytes.
const LONG_LOG: u64 = 67_108_864;

pub struct Store {
    pub records: Records,
    pub catalog: Catalog,
    /// Within a transaction the catalog before it. Nothing is committed until its end.
    before: Option<Catalog>,
}

/// How many nodes a document has, and how many intervals.
pub struct Loaded {
    pub nodes: usize,
    pub intervals: usize,
}

impl Store {
    pub fn create(name: &str, header: Header) -> Result<Store, Failure> {
        Ok(Store {
            records: Records::create(name, header)?,
            catalog: Catalog::default(),
            before: None,
        })
    }

    pub fn open(name: &str) -> Result<Store, Failure> {
        let mut records = Records::open(name)?;
        let catalog = records.catalog()?;
        let catalog = Catalog::read(&catalog.bytes).ok_or(Failure::Damaged(0))?;
        Ok(Store {
            records,
            catalog,
            before: None,
        })
    }

    pub fn entry(&self, name: &[u8]) -> Option<Entry> {
        self.catalog.documents.get(name).copied()
    }

    /// Keeps a document under a new name, by one commit, or says why it is refused.
    pub fn load(
        &mut self,
        name: &[u8],
        document: &Tree,
    ) -> Result<Result<Loaded, String>, Failure> {
        self.shorten_log()?;
        let shape = Shape::new(document);
        let cuts = match partition::lean(&shape, self.records.head.k.into()) {
            Ok(lean) => lean.cuts,
            Err(refusal) => return Ok(Err(refusal)),
        };
        let put = building::store(&mut self.records, document, &shape, &cuts).and_then(|root| {
            let nodes = shape.count() as u32;
            let entry = Entry { root, nodes };
            self.catalog.documents.insert(name.to_vec(), entry);
            self.records.set_catalog(&self.catalog.bytes())
        });
        if let Err(refusal) = self.end(put.map_err(Stop::from))? {
            self.catalog.documents.remove(name);
            return Ok(Err(refusal));
        }
        let starts = cuts.iter().filter(|&&cut| cut == partition::Cut::First);
        Ok(Ok(Loaded {
            nodes: shape.count(),
            intervals: 1 + starts.count(),
        }))
    }

    /// Begins a transaction: what changes from here on is one commit.
    pub fn begin(&mut self) -> Result<(), Failure> {
        self.shorten_log()?;
        self.before = Some(self.catalog.clone());
        Ok(())
    }

    /// Ends a transaction with one commit, where it has changed anything.
    pub fn commit(&mut self) -> Result<(), Failure> {
        self.before = None;
        self.records.commit()
    }

    /// Ends a transaction, and leaves the store as it was before it.
    pub fn roll_back(&mut self) {
        self.records.abandon();
        if let Some(before) = self.before.take() {
            self.catalog = before;
        }
    }

    fn shorten_log(&mut self) -> Result<(), Failure> {
        if self.before.is_none() && self.records.log_length() > LONG_LOG {
            self.records.checkpoint()?;
        }
        Ok(())
    }

    /// Commits what was made, or drops it and says why it is refused. Within a transaction that is left to its end.
    fn end(&mut self, made: Result<(), Stop>) -> Result<Result<(), String>, Failure> {
        let refusal = match made {
            Ok(()) => {
                if self.before.is_none() {
                    self.records.commit()?;
                }
                return Ok(Ok(()));
            }
            Err(Stop::Refused(refusal)) => refusal,
            Err(Stop::Failure(Failure::Full)) => "full".to_string(),
            Err(Stop::Failure(failure)) => return Err(failure),
        };
        if self.before.is_none() {
            self.records.abandon();
        }
        Ok(Err(refusal))
    }

    /// Edits the document of that name and entry, by one commit, or says why that is refused.
    pub fn edit(
        &mut self,
        name: &[u8],
        entry: Entry,
        path: &[u32],
        change: &Change,
    ) -> Result<Result<(), String>, Failure> {
        self.shorten_log()?;
        let rules = &self.catalog.rules;
        let made = edit(&mut self.records, rules, entry, path, change).and_then(|new| {
            if new != entry {
                self.catalog.documents.insert(name.to_vec(), new);
                self.records.set_catalog(&self.catalog.bytes())?;
            }
            Ok(())
        });
        let ended = self.end(made)?;
        if ended.is_err() {
            self.catalog.documents.insert(name.to_vec(), entry);
        }
        Ok(ended)
    }

    /// Takes the document of that name and entry away, by one commit.
    pub fn discard(&mut self, name: &[u8], entry: Entry) -> Result<Result<(), String>, Failure> {
        self.shorten_log()?;
        let rules = &self.catalog.rules;
        let made = remove_document(&mut self.records, rules, entry).and_then(|()| {
            self.catalog.documents.remove(name);
            self.records.set_catalog(&self.catalog.bytes())
        });
        self.end(made.map_err(Stop::from))
    }

    /// Gives the document of that name and entry another name, which is new.
    pub fn rename(
        &mut self,
        name: &[u8],
        entry: Entry,
        new: &[u8],
    ) -> Result<Result<(), String>, Failure> {
        self.shorten_log()?;
        self.catalog.documents.remove(name);
        self.catalog.documents.insert(new.to_vec(), entry);
        let made = self.records.set_catalog(&self.catalog.bytes());
        let ended = self.end(made.map_err(Stop::from))?;
        if ended.is_err() {
            self.catalog.documents.remove(new);
            self.catalog.documents.insert(name.to_vec(), entry);
        }
        Ok(ended)
    }

    /// Makes a rule, by one commit.
    pub fn set_rule(
        &mut self,
        parent: &[u8],
        child: &[u8],
        asked: Asked,
    ) -> Result<Result<(), String>, Failure> {
        self.shorten_log()?;
        let Some(before) = self.catalog.rules.set(parent, child, asked) else {
            return Ok(Err("too-many-rules".to_string()));
        };
        let made = self.records.set_catalog(&self.catalog.bytes());
        let ended = self.end(made.map_err(Stop::from))?;
        if ended.is_err() {
            self.catalog.rules.set(parent, child, before);
        }
        Ok(ended)
    }
}

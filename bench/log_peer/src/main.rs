//! The driver of natix's log without proofs: the commands `create`, `fill` and `open` of
//! `nx_wal_driver`, and `natix STORE apply`, which write the same bytes with the same syncs.

use std::collections::BTreeMap;
use std::env;
use std::fs::{File, OpenOptions};
use std::io::{self, ErrorKind, Read, Write};
use std::os::unix::fs::FileExt;

const PAGE: usize = 8_192;
const MOST_PAGES: u32 = 16_777_216;

/// Above so many bytes of the log a checkpoint comes before a group of a stream.
const LONG_LOG: u64 = 67_108_864;

/// The two files of a store, and where the pages of its log stand.
struct Store {
    pages: File,
    log: File,
    places: BTreeMap<u32, u64>,
    /// Where the log ends, and whether a closed byte stands there.
    end: u64,
    shut: bool,
    /// The group that is written, kept for its room.
    group: Vec<u8>,
}

fn invalid(what: &str) -> io::Error {
    io::Error::new(ErrorKind::InvalidData, what)
}

fn open_file(path: &str) -> io::Result<File> {
    let mut options = OpenOptions::new();
    let file = options
        .read(true)
        .write(true)
        .create(true)
        .truncate(false)
        .open(path)?;
    file.try_lock()?;
    Ok(file)
}

/// As many bytes as the file has there, up to so many.
fn read_at(file: &File, bytes: &mut [u8], at: u64) -> io::Result<usize> {
    let mut count = 0;
    while count < bytes.len() {
        match file.read_at(&mut bytes[count..], at + count as u64) {
            Ok(0) => break,
            Ok(more) => count += more,
            Err(error) if error.kind() == ErrorKind::Interrupted => {}
            Err(error) => return Err(error),
        }
    }
    Ok(count)
}

fn number_at(bytes: &[u8]) -> u32 {
    u32::from_be_bytes([bytes[0], bytes[1], bytes[2], bytes[3]])
}

impl Store {
    fn open(name: &str) -> io::Result<Store> {
        let mut store = Store {
            pages: open_file(name)?,
            log: open_file(&format!("{name}.log"))?,
            places: BTreeMap::new(),
            end: 0,
            shut: false,
            group: Vec::new(),
        };
        store.pages.sync_data()?;
        store.log.sync_data()?;
        let folder = name.rsplit_once('/').map_or(".", |(folder, _)| folder);
        File::open(folder)?.sync_all()?;
        while store.read_group()? {}
        Ok(store)
    }

    /// Notes where the pages of the group at the log's end stand, if one is there.
    fn read_group(&mut self) -> io::Result<bool> {
        let length = self.log.metadata()?.len();
        let mut head = [0; 13];
        let given = read_at(&self.log, &mut head, self.end)?;
        self.shut = given > 0 && head[0] != 1;
        let count = number_at(&head[9..]);
        let end = self.end + 13 + 8_196 * u64::from(count);
        if given < 13 || head[0] != 1 || count == 0 || count > MOST_PAGES || end >= length {
            return Ok(false);
        }
        let mut numbers = Vec::with_capacity(count as usize);
        for i in 0..u64::from(count) {
            let mut number = [0; 4];
            self.log
                .read_exact_at(&mut number, self.end + 13 + 8_196 * i)?;
            numbers.push(number_at(&number));
        }
        if numbers.last() >= Some(&MOST_PAGES) || !numbers.is_sorted_by(|one, other| one < other) {
            return Ok(false);
        }
        for (number, i) in numbers.into_iter().zip(0u64..) {
            self.places.insert(number, self.end + 17 + 8_196 * i);
        }
        self.end = end;
        Ok(true)
    }

    fn page_count(&self) -> io::Result<u32> {
        let whole = (self.pages.metadata()?.len() / PAGE as u64).min(u64::from(MOST_PAGES)) as u32;
        Ok(self
            .places
            .last_key_value()
            .map_or(0, |(page, _)| page + 1)
            .max(whole))
    }

    fn read_page(&self, page: u32) -> io::Result<[u8; PAGE]> {
        let mut bytes = [0; PAGE];
        match self.places.get(&page) {
            Some(&at) => self.log.read_exact_at(&mut bytes, at)?,
            None => self
                .pages
                .read_exact_at(&mut bytes, PAGE as u64 * u64::from(page))?,
        }
        Ok(bytes)
    }

    /// Commits a group of these pages, whose numbers rise.
    fn commit(&mut self, number: u64, seed: u64, pages: &[u32]) -> io::Result<()> {
        self.group.clear();
        self.group.extend(number.to_be_bytes());
        self.group.extend((pages.len() as u32).to_be_bytes());
        for &page in pages {
            self.group.extend(page.to_be_bytes());
            push_page(&mut self.group, seed, number, page);
        }
        self.write_group(pages)
    }

    /// Writes the group that is kept, of these pages, behind the others.
    fn write_group(&mut self, pages: &[u32]) -> io::Result<()> {
        if !self.shut {
            self.log.write_all_at(&[0], self.end)?;
            self.log.sync_data()?;
        }
        self.group.push(0);
        self.log.write_all_at(&self.group, self.end + 1)?;
        self.log.sync_data()?;
        self.log.write_all_at(&[1], self.end)?;
        self.log.sync_data()?;
        for (&page, i) in pages.iter().zip(0u64..) {
            self.places.insert(page, self.end + 17 + 8_196 * i);
        }
        self.end += 13 + 8_196 * pages.len() as u64;
        self.shut = true;
        Ok(())
    }

    /// Takes the next group of a stream, and answers its number and those of its pages, or nothing where the
    /// stream ends.
    fn take_group(&mut self, input: &mut impl Read) -> io::Result<Option<(u64, Vec<u32>)>> {
        let mut head = [0; 12];
        if input.read(&mut head[..1])? == 0 {
            return Ok(None);
        }
        input.read_exact(&mut head[1..])?;
        let number = u64::from(number_at(&head)) << 32 | u64::from(number_at(&head[4..]));
        let count = number_at(&head[8..]);
        if count == 0 || count > MOST_PAGES {
            return Err(invalid("a group has a page and not too many"));
        }
        self.group.clear();
        self.group.extend(head);
        let size = 8_196 * u64::from(count);
        if input.take(size).read_to_end(&mut self.group)? as u64 != size {
            return Err(invalid("a group isn't whole"));
        }
        let pages: Vec<u32> = self.group[12..].chunks(8_196).map(number_at).collect();
        if pages.last() >= Some(&MOST_PAGES) || !pages.is_sorted_by(|one, other| one < other) {
            return Err(invalid("the pages of a group rise"));
        }
        Ok(Some((number, pages)))
    }

    fn checkpoint(&mut self) -> io::Result<()> {
        if self.end == 0 {
            return Ok(());
        }
        let mut bytes = [0; PAGE];
        for (&page, &at) in &self.places {
            self.log.read_exact_at(&mut bytes, at)?;
            self.pages
                .write_all_at(&bytes, PAGE as u64 * u64::from(page))?;
        }
        self.pages.sync_data()?;
        self.log.write_all_at(&[0], 0)?;
        self.log.sync_data()?;
        self.places.clear();
        self.end = 0;
        self.shut = true;
        Ok(())
    }
}

fn push_page(bytes: &mut Vec<u8>, seed: u64, group: u64, page: u32) {
    for unit in 0..256u32 {
        bytes.extend(b"NATIXST1");
        bytes.extend(seed.to_be_bytes());
        bytes.extend(group.to_be_bytes());
        bytes.extend(page.to_be_bytes());
        bytes.extend(unit.to_be_bytes());
    }
}

/// Page 0 and others behind each other, as on a ring, by their numbers.
fn pages_of(group: u64, seed: u64, pages: u32, count: u32) -> Vec<u32> {
    let mut numbers = vec![0];
    for i in 1..pages {
        let others = u64::from(count - 1);
        let first = group.wrapping_mul(7_919).wrapping_add(seed) % others;
        numbers.push(1 + ((first + u64::from(i)) % others) as u32);
    }
    numbers.sort_unstable();
    numbers
}

fn create(name: &str, count: u32, seed: u64) -> io::Result<()> {
    let mut store = Store::open(name)?;
    if store.page_count()? > 0 {
        return Err(invalid("there are pages already"));
    }
    store.commit(0, seed, &Vec::from_iter(0..count))?;
    io::stdout().write_all(b"commit 0\n")
}

fn fill(name: &str, groups: u64, pages: u32, every: u64, seed: u64) -> io::Result<()> {
    let mut store = Store::open(name)?;
    let count = store.page_count()?;
    if pages > count {
        return Err(invalid("too few pages"));
    }
    let first = store.read_page(0)?;
    let mut group = u64::from(number_at(&first[16..])) << 32 | u64::from(number_at(&first[20..]));
    let mut output = io::stdout();
    for i in 0..groups {
        group = group.wrapping_add(1);
        store.commit(group, seed, &pages_of(group, seed, pages, count))?;
        output.write_all(format!("commit {group}\n").as_bytes())?;
        if every > 0 && i % every == every - 1 {
            store.checkpoint()?;
            output.write_all(format!("checkpoint {group}\n").as_bytes())?;
        }
    }
    Ok(())
}

fn open(name: &str) -> io::Result<()> {
    let store = Store::open(name)?;
    let line = format!("log {} pages {}\n", store.end, store.page_count()?);
    io::stdout().write_all(line.as_bytes())
}

fn apply(name: &str) -> io::Result<()> {
    let mut store = Store::open(name)?;
    let mut input = io::stdin().lock();
    let mut output = io::stdout();
    while let Some((number, pages)) = store.take_group(&mut input)? {
        if store.end > LONG_LOG {
            store.checkpoint()?;
        }
        store.write_group(&pages)?;
        output.write_all(format!("ok {number}\n").as_bytes())?;
    }
    Ok(())
}

fn main() -> io::Result<()> {
    let words: Vec<String> = env::args().skip(1).collect();
    let words: Vec<&str> = words.iter().map(String::as_str).collect();
    let number = |at: usize| -> io::Result<u64> {
        let word = words.get(at).copied().unwrap_or("0");
        word.parse().map_err(|_| invalid("not a number"))
    };
    match words[..] {
        [name, "create", ..] => create(name, number(2)? as u32, number(3)?),
        [name, "fill", ..] => fill(name, number(2)?, number(3)? as u32, number(4)?, number(5)?),
        [name, "open"] => open(name),
        [name, "apply"] => apply(name),
        _ => Err(invalid(
            "usage: log_peer STORE create PAGES [SEED] | fill GROUPS PAGES [EVERY [SEED]] | open | apply",
        )),
    }
}

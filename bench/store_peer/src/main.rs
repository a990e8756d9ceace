//! A store in natix's files without proofs: `init` makes one, and `run` answers the commands of a script from it, with
//! the same replies and the same syncs. It reads documents and partitions them as `bench/peer` does. An edit writes the
//! records on its path that change, and of a list of proxies and of the catalog the chain pages that change.

mod building;
mod cache;
mod catalog;
mod dividing;
mod draft;
mod editing;
mod failure;
mod header;
mod log;
mod page;
mod piece;
mod records;
mod rules;
mod script;
mod showing;
mod slots;
mod split;
mod store;
mod stored;

#[allow(dead_code)]
#[path = "../../peer/src/fields.rs"]
mod fields;
#[allow(dead_code)]
#[path = "../../peer/src/fronts.rs"]
mod fronts;
#[allow(dead_code)]
#[path = "../../peer/src/partition.rs"]
mod partition;
#[allow(dead_code)]
#[path = "../../peer/src/parts.rs"]
mod parts;
#[allow(dead_code)]
#[path = "../../peer/src/pyx.rs"]
mod pyx;
#[allow(dead_code)]
#[path = "../../peer/src/shape.rs"]
mod shape;
#[allow(dead_code)]
#[path = "../../peer/src/tree.rs"]
mod tree;

pub use failure::Failure;
use header::Header;
use page::MOST_PAGES;
use std::env;
use std::io;
use std::process::ExitCode;
use store::Store;

/// K, and where more is said the split target, the split tolerance and the limit of pages.
fn init(name: &str, settings: &[&str]) -> Result<(), Failure> {
    let ranges = [1..=256, 0..=100, 0..=256, 64..=MOST_PAGES];
    let mut numbers = [None; 4];
    for (at, (word, range)) in settings.iter().zip(ranges).enumerate() {
        let number = fields::number_of(word.as_bytes()).filter(|number| range.contains(number));
        numbers[at] = Some(number.ok_or(Failure::Usage)?);
    }
    let [Some(k), target, tolerance, limit] = numbers else {
        return Err(Failure::Usage);
    };
    let mut header = Header::new(k as u16);
    header.target = target.map_or(header.target, |target| target as u16);
    header.tolerance = tolerance.map_or(header.tolerance, |tolerance| tolerance as u16);
    header.limit = limit.unwrap_or(header.limit);
    Store::create(name, header)?;
    println!("ok");
    Ok(())
}

fn run(name: &str) -> Result<(), Failure> {
    let store = Store::open(name)?;
    script::run(store, io::stdin().lock(), io::stdout())
}

fn main() -> ExitCode {
    let words: Vec<String> = env::args().skip(1).collect();
    let words: Vec<&str> = words.iter().map(String::as_str).collect();
    let ended = match words[..] {
        [name, "init", ref settings @ ..] if (1..=4).contains(&settings.len()) => {
            init(name, settings)
        }
        [name, "run"] => run(name),
        _ => Err(Failure::Usage),
    };
    let (status, message) = match ended {
        Ok(()) => return ExitCode::SUCCESS,
        Err(Failure::Exists) => {
            println!("refused exists");
            return ExitCode::from(2);
        }
        Err(Failure::Usage) => (
            1,
            "usage: store_peer STORE init K [TARGET [TOLERANCE [PAGES]]] | run".to_string(),
        ),
        Err(Failure::Disk | Failure::Full) => (3, "disk fault".to_string()),
        Err(Failure::Read) => (4, "read fault".to_string()),
        Err(Failure::Write) => (5, "write fault".to_string()),
        Err(Failure::NotAStore) => (7, "not a store".to_string()),
        Err(Failure::Damaged(page)) => (8, format!("damaged page {page}")),
        Err(Failure::TooMuch) => (9, "too much input".to_string()),
    };
    eprintln!("{message}");
    ExitCode::from(status)
}

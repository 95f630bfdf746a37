//! 02 (k), "How fast the flash wears": *the account of wear* of a run, and the bounds that it is held to after every call. Beside the book, it is kept from the calls'
//! arguments, the book before each call and the listed stores: "with sizes taken from the calls .., not from the entries in the image".

use super::book::{stored, Book};
use super::generate::Asked;
use super::modes::PLAT_MODE;
use super::stored::Call;
use super::tenants::entry_size;
use varstore::interface::AUDIT_MODE;
use varstore::paper::image::{blank, Parts};
use varstore::paper::layout::Authenticated;
use varstore::paper::region::{clean, walk, REGION_HEADER};
use varstore::paper::request::PK;
use varstore::paper::work::{self, RECORDS};
use varstore::paper::{Store, Stores};

/// What a call has to do that is not refused. 23 is no refusal here: it is met at a store, so that a failed call had as much to store as one that is done.
#[derive(Clone, Copy, PartialEq, Eq, Debug)]
pub enum Task {
    /// A delete, or a call that changes nothing: no entry is to be stored.
    NoEntry,
    /// One entry of a rounded size, and whether the tail has room for it.
    Entry {
        size: usize,
        fits: bool,
    },
    /// A profile, or a change of mode and PK together: a compaction in any case.
    Folded,
    StartUp,
}

/// What a call has to do, by its arguments, the book before it and the length of the image's tail. A format is no call of a run.
pub fn task(call: &Call, book: &Book, image: &[u8]) -> Option<Task> {
    let entry = |size: usize| Task::Entry { size, fits: size <= tail(image) };
    match call {
        Call::Set(asked) if is_joint(asked, book) => Some(Task::Folded),
        Call::Set(asked) => Some(size_of(asked, book).map_or(Task::NoEntry, entry)),
        Call::Mode { to, .. } if *to == AUDIT_MODE && book.value(PK).is_some() => Some(Task::Folded),
        Call::Mode { .. } => Some(entry(entry_size(PLAT_MODE.name.len(), 1) as usize)),
        Call::Profile(_) if call.sets().iter().all(|item| is_equal(item, book)) => Some(Task::NoEntry),
        Call::Profile(_) => Some(Task::Folded),
        Call::StartUp(_) | Call::Restart => Some(Task::StartUp),
        Call::Format => None,
    }
}

/// Attributes 0, or empty data proper without append.
fn is_delete(asked: &Asked) -> bool {
    asked.attributes == 0 || asked.attributes & 0x40 == 0 && stored(&asked.request()).1.is_empty()
}

/// Equal data and attributes, neither 0x20 nor 0x40 among them.
fn is_equal(asked: &Asked, book: &Book) -> bool {
    let equal = |data: &[u8], attributes| attributes == asked.attributes && data == asked.data;
    asked.attributes & 0x60 == 0 && book.value(asked.name.key()).is_some_and(|value| equal(&value.data, value.attributes))
}

/// 02 (j): PK comes or goes beside a value of PlatMode.
fn is_joint(asked: &Asked, book: &Book) -> bool {
    let comes = || !is_delete(asked) && !stored(&asked.request()).1.is_empty();
    let changes = || if book.value(PK).is_some() { is_delete(asked) } else { comes() };
    asked.name.key() == PK && book.value(PLAT_MODE).is_some() && changes()
}

/// The rounded size of the entry that a set has to store: "for an append, its data and those then standing under the name".
fn size_of(asked: &Asked, book: &Book) -> Option<usize> {
    let proper = stored(&asked.request()).1.len();
    let append = asked.attributes & 0x40 != 0;
    if is_delete(asked) || append && proper == 0 || is_equal(asked, book) {
        return None;
    }
    let standing = book.value(asked.name.key()).filter(|_| append).map_or(0, |value| value.data.len());
    Some(entry_size(asked.name.name.len(), standing + proper) as usize)
}

/// The length of the tail of an image.
pub fn tail(image: &[u8]) -> usize {
    let region = Parts::of(image).expect("the length of an image").region;
    let mut walk = walk::<Authenticated>(region);
    walk.by_ref().for_each(drop);
    region.len() - walk.at
}

/// The same of an image that is ready for calls. What ends a look soon comes first: most images that are looked at are cut in a compaction.
fn tail_if_ready(image: &[u8]) -> Option<usize> {
    let parts = Parts::of(image)?;
    let idle = work::read(parts.work).is_some_and(|records| !records.ends_in_spare_complete);
    if !idle || !blank(parts.spare) {
        return None;
    }
    clean::<Authenticated>(parts.region).map(|at| parts.length() - at)
}

/// What a window was opened by: the run's beginning, a compaction because the tail was too short, or another one.
#[derive(Clone, Copy, PartialEq, Eq, PartialOrd, Ord, Debug)]
pub enum Opened {
    AtTheBeginning,
    ForAShortTail,
    Otherwise,
}

/// Since the last compaction that was made, or since the run began: the tail that was left, and what calls have had to store. Start-ups end no window.
#[derive(Clone, Copy, PartialEq, Eq, Debug)]
pub struct Window {
    pub opened: Opened,
    pub left: usize,
    pub since: usize,
    /// Start-ups in it that had stores to make.
    pub busy: usize,
}

/// A window that a call has outgrown, and by how many bytes.
#[derive(Clone, Copy, PartialEq, Eq, Debug)]
pub struct Outgrown {
    pub window: Window,
    pub excess: usize,
}

/// The account, from the image that the run began on.
#[derive(Clone, Copy, Debug)]
pub struct Wear {
    blocks: usize,
    pub window: Window,
    /// A compaction was the last call, and no look was taken at the tail that it left.
    fresh: bool,
    /// The tails of compactions that were looked at.
    pub looked: usize,
    /// The bytes that sets and mode requests had to store.
    pub stored: usize,
    /// The smallest tail that a compaction left; L less the header before there was one.
    pub least: usize,
    /// Compactions that were made because the tail was too short, and other ones.
    pub shorts: usize,
    pub others: usize,
    /// Start-ups that had stores to make.
    pub busy: usize,
    /// Calls that had a compaction to make, whether it was made or not.
    pub due: usize,
    pub power_failures: usize,
    /// Of each block of the longest image.
    erases: [usize; 15],
    /// The window that the last call has outgrown, if it has, and the smallest excess of any.
    pub outgrown: Option<Outgrown>,
    pub smallest: Option<usize>,
}

impl Wear {
    /// Begins on an image as a done start-up or a move left it.
    pub fn of(image: &[u8]) -> Wear {
        let parts = Parts::of(image).expect("the length of an image");
        Wear {
            blocks: parts.blocks,
            window: Window { opened: Opened::AtTheBeginning, left: tail(image), since: 0, busy: 0 },
            fresh: false,
            looked: 0,
            stored: 0,
            least: parts.length() - REGION_HEADER,
            shorts: 0,
            others: 0,
            busy: 0,
            due: 0,
            power_failures: 0,
            erases: [0; 15],
            outgrown: None,
            smallest: None,
        }
    }

    /// How often each block was erased, an erase that was begun when the power failed among them.
    pub fn erases(&self) -> &[usize] {
        &self.erases[..2 * self.blocks + 1]
    }

    pub fn erases_of_work(&self) -> usize {
        self.erases[self.blocks]
    }

    /// The most erases of a block of region or spare.
    pub fn most_erases(&self) -> usize {
        (0..=2 * self.blocks).filter(|&block| block != self.blocks).map(|block| self.erases[block]).max().expect("blocks of a region")
    }

    /// The planners' figure: no block of region or spare is erased more often.
    pub fn figure(&self) -> usize {
        1 + self.others + self.busy + self.stored / (self.least + 1)
    }

    /// Before the next call, refused or not: "the tail that the first compaction left" is L less the header and the book's values. So long is the image's, if calls are
    /// accepted after the compaction without a start-up.
    pub fn next(&mut self, image: &[u8]) {
        self.outgrown = None;
        if !std::mem::take(&mut self.fresh) {
            return;
        }
        if let Some(tail) = tail_if_ready(image) {
            assert_eq!(tail, self.window.left, "the tail that a compaction left: {self:?}");
            self.looked += 1;
        }
    }

    /// Takes a call that was not refused: its list, how many of its stores were made, whether the deciding one was among them, and the book after it.
    pub fn take(&mut self, task: Task, list: &Stores, made: usize, decided: bool, book: &Book) {
        let (size, compacts) = match task {
            Task::NoEntry => (0, false),
            Task::Entry { size, fits } => (size, !fits),
            Task::Folded => (0, true),
            Task::StartUp => (0, false),
        };
        let busy = task == Task::StartUp && !list.is_empty();
        assert!(busy || compacts == list.erased(usize::MAX).next().is_some(), "{task:?} compacts, or it erases nothing: {self:?}");
        self.stored += size;
        self.due += usize::from(compacts);
        self.busy += usize::from(busy);
        self.window.busy += usize::from(busy);
        let folded = task == Task::Folded;
        if compacts && !folded {
            self.outgrow(size);
        }
        if compacts && decided {
            self.open(folded, book);
        } else {
            self.window.since += size;
        }
        if self.erase(list.erased(made)) || compacts {
            self.check();
        }
    }

    /// The power fails in the last call, and the store that was next may be begun: "an erase leaves anything in its block", so that it counts.
    pub fn power_fails(&mut self, next: Option<Store>) {
        self.power_failures += 1;
        if let Some(Store::Erase(block)) = next {
            self.erase([block].into_iter());
            self.check();
        }
    }

    /// Whether there are any.
    fn erase(&mut self, blocks: impl Iterator<Item = usize>) -> bool {
        let mut any = false;
        for block in blocks {
            self.erases[block] += 1;
            any = true;
        }
        any
    }

    /// "the rounded sizes of all entries that sets and mode requests .. had to store, the last one included, add up to more than the tail that the first compaction left": of any
    /// call that compacts because the tail is too short, be it done, stopped, failed or cut.
    fn outgrow(&mut self, size: usize) {
        let sum = self.window.since + size;
        assert!(sum > self.window.left, "{size} bytes do not fit in the tail: {self:?}");
        let excess = sum - self.window.left;
        self.outgrown = Some(Outgrown { window: self.window, excess });
        self.smallest = Some(self.smallest.map_or(excess, |smallest| smallest.min(excess)));
    }

    /// A compaction is made when its deciding store is complete; one that was ended before has had no effect.
    fn open(&mut self, folded: bool, book: &Book) {
        let values: u64 = book.values.iter().map(|value| entry_size(value.name.name.len(), value.data.len())).sum();
        let left = self.blocks * super::generate::BLOCK - REGION_HEADER - values as usize;
        let (opened, count) = if folded { (Opened::Otherwise, &mut self.others) } else { (Opened::ForAShortTail, &mut self.shorts) };
        *count += 1;
        self.window = Window { opened, left, since: 0, busy: 0 };
        self.least = self.least.min(left);
        self.fresh = true;
    }

    /// What planners may count on. A run that ends here is a run too, so that it holds after every call.
    fn check(&self) {
        let Wear { blocks, stored, shorts, others, busy, due, power_failures, .. } = *self;
        let step = self.least + 1;
        assert!(shorts * step <= step + stored, "compactions because the tail was too short: {self:?}");
        for (block, &erases) in self.erases().iter().enumerate() {
            if block == blocks {
                // A compaction uses one of 64 records, made or not, and so does a start-up that compacts; some may be used at the beginning. A start-up may find a block to
                // be erased, and an erase that is begun may leave all 64 used.
                let bound = RECORDS * (1 + busy + power_failures) + due + busy;
                assert!(RECORDS * erases <= bound, "erases of the work block: {self:?}");
            } else {
                assert!(erases <= shorts + others + busy, "erases of block {block}: {self:?}");
                assert!(erases * step <= (1 + others + busy) * step + stored, "the planners' figure of block {block}: {self:?}");
            }
        }
    }
}

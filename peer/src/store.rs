//! The message store: the bytes held under message numbers, and what they cost in units.
//!
//! All that can be seen of a store is what it holds and how many units are in use. So both kinds are
//! one map here; they differ in their capacity and in their costs.

use std::collections::BTreeMap;
use std::fmt;

pub const LONGEST_MESSAGE: usize = 128;

#[derive(Clone, Copy, Debug, PartialEq, Eq)]
pub enum StoreKind {
    Slot,
    Packed,
}

impl StoreKind {
    /// How many units there are.
    pub fn capacity(self) -> u32 {
        match self {
            StoreKind::Slot => 64,
            StoreKind::Packed => 4096,
        }
    }

    /// How many units a message of so many bytes costs.
    pub fn cost(self, length: usize) -> u32 {
        match self {
            StoreKind::Slot => 1,
            StoreKind::Packed => length as u32 + 16,
        }
    }
}

/// Why a store refuses a call. The field `message` is the number that the call was about.
#[derive(Clone, Copy, Debug, PartialEq, Eq)]
pub enum StoreFault {
    BadLength {
        message: u32,
    },
    Held {
        message: u32,
    },
    NotHeld {
        message: u32,
    },
    StoreFull {
        message: u32,
        wanted: u32,
        free: u32,
    },
    Cramped {
        message: u32,
    },
}

impl StoreFault {
    /// The row: number, name, and the message number that is the place.
    fn row(&self) -> (u8, &'static str, u32) {
        match *self {
            StoreFault::BadLength { message } => (17, "BAD_LENGTH", message),
            StoreFault::Held { message } => (18, "HELD", message),
            StoreFault::NotHeld { message } => (19, "NOT_HELD", message),
            StoreFault::StoreFull { message, .. } => (20, "STORE_FULL", message),
            StoreFault::Cramped { message } => (21, "CRAMPED", message),
        }
    }

    pub fn number(&self) -> u8 {
        self.row().0
    }

    pub fn name(&self) -> &'static str {
        self.row().1
    }

    pub fn layer(&self) -> &'static str {
        "store"
    }

    pub fn place(&self) -> u32 {
        self.row().2
    }

    /// The units wanted and free, for STORE_FULL alone.
    pub fn units(&self) -> Option<(u32, u32)> {
        match *self {
            StoreFault::StoreFull { wanted, free, .. } => Some((wanted, free)),
            _ => None,
        }
    }
}

/// The printed form of every refusal: number, name, layer and place, and the units where they are told.
pub fn print_refusal(
    f: &mut fmt::Formatter,
    (number, name, layer, place): (u8, &str, &str, u32),
    units: Option<(u32, u32)>,
) -> fmt::Result {
    write!(f, "refused {number} {name} layer={layer} place={place}")?;
    match units {
        Some((wanted, free)) => write!(f, " wanted={wanted} free={free}"),
        None => Ok(()),
    }
}

impl fmt::Display for StoreFault {
    fn fmt(&self, f: &mut fmt::Formatter) -> fmt::Result {
        let row = (self.number(), self.name(), self.layer(), self.place());
        print_refusal(f, row, self.units())
    }
}

#[derive(Clone, Debug)]
pub struct Store {
    kind: StoreKind,
    held: BTreeMap<u32, Vec<u8>>,
}

impl Store {
    pub fn new(kind: StoreKind) -> Store {
        Store {
            kind,
            held: BTreeMap::new(),
        }
    }

    /// Holds a copy of the bytes under the number.
    pub fn put(&mut self, message: u32, bytes: &[u8]) -> Result<(), StoreFault> {
        self.may_put(message, bytes.len(), 0)?;
        self.held.insert(message, bytes.to_vec());
        Ok(())
    }

    /// Whether `put` would be taken if so many more units were free than are.
    pub fn may_put(&self, message: u32, length: usize, freed: u32) -> Result<(), StoreFault> {
        if length == 0 || length > LONGEST_MESSAGE {
            return Err(StoreFault::BadLength { message });
        }
        if self.held.contains_key(&message) {
            return Err(StoreFault::Held { message });
        }
        let wanted = self.kind.cost(length);
        let free = self.free() + freed;
        if wanted > free {
            return Err(StoreFault::StoreFull {
                message,
                wanted,
                free,
            });
        }
        Ok(())
    }

    /// Writes the held bytes to the front of the buffer, and answers how many they are.
    pub fn copy(&self, message: u32, buffer: &mut [u8]) -> Result<usize, StoreFault> {
        let bytes = self
            .held
            .get(&message)
            .ok_or(StoreFault::NotHeld { message })?;
        let front = buffer
            .get_mut(..bytes.len())
            .ok_or(StoreFault::Cramped { message })?;
        front.copy_from_slice(bytes);
        Ok(bytes.len())
    }

    /// Makes the number hold nothing.
    pub fn discard(&mut self, message: u32) -> Result<(), StoreFault> {
        match self.held.remove(&message) {
            Some(_) => Ok(()),
            None => Err(StoreFault::NotHeld { message }),
        }
    }

    pub fn clear(&mut self) {
        self.held.clear();
    }

    /// The units in use. Counted anew each time, so that the sum cannot go stale.
    pub fn used(&self) -> u32 {
        self.held
            .values()
            .map(|bytes| self.kind.cost(bytes.len()))
            .sum()
    }

    pub fn free(&self) -> u32 {
        self.kind.capacity() - self.used()
    }

    pub fn kind(&self) -> StoreKind {
        self.kind
    }

    /// How many bytes are held under the number, if any are.
    pub fn length(&self, message: u32) -> Option<usize> {
        self.held.get(&message).map(Vec::len)
    }

    /// The numbers that hold something.
    #[cfg(test)]
    pub fn numbers(&self) -> impl Iterator<Item = u32> + '_ {
        self.held.keys().copied()
    }
}

#[cfg(test)]
mod tests {
    use super::*;

    fn refused<T: fmt::Debug>(result: Result<T, StoreFault>, text: &str) {
        assert_eq!(result.unwrap_err().to_string(), text);
    }

    #[test]
    fn put_copy_and_discard() {
        for kind in [StoreKind::Slot, StoreKind::Packed] {
            let mut store = Store::new(kind);
            store.put(9, b"hi").unwrap();
            let mut buffer = *b"....";
            assert_eq!(store.copy(9, &mut buffer), Ok(2));
            assert_eq!(&buffer, b"hi..");
            assert_eq!(store.used(), kind.cost(2));
            store.discard(9).unwrap();
            assert_eq!(store.used(), 0);
            refused(
                store.copy(9, &mut buffer),
                "refused 19 NOT_HELD layer=store place=9",
            );
            assert_eq!(&buffer, b"hi..");
        }
    }

    #[test]
    fn the_five_refusals() {
        let mut store = Store::new(StoreKind::Slot);
        refused(
            store.put(1, b""),
            "refused 17 BAD_LENGTH layer=store place=1",
        );
        refused(
            store.put(1, &[0; 129]),
            "refused 17 BAD_LENGTH layer=store place=1",
        );
        store.put(502, &[0; 128]).unwrap();
        refused(
            store.put(502, b"x"),
            "refused 18 HELD layer=store place=502",
        );
        refused(
            store.put(502, b""),
            "refused 17 BAD_LENGTH layer=store place=502",
        );
        refused(store.discard(4), "refused 19 NOT_HELD layer=store place=4");
        let mut short = [1; 127];
        refused(
            store.copy(502, &mut short),
            "refused 21 CRAMPED layer=store place=502",
        );
        assert_eq!(short, [1; 127]);
        for message in 1000..1063 {
            store.put(message, b"x").unwrap();
        }
        refused(
            store.put(7, b"x"),
            "refused 20 STORE_FULL layer=store place=7 wanted=1 free=0",
        );
        refused(
            store.put(502, b"x"),
            "refused 18 HELD layer=store place=502",
        );
    }

    #[test]
    fn what_a_fault_tells() {
        let full = StoreFault::StoreFull {
            message: 7,
            wanted: 65,
            free: 64,
        };
        assert_eq!(
            (full.number(), full.name(), full.layer()),
            (20, "STORE_FULL", "store")
        );
        assert_eq!((full.place(), full.units()), (7, Some((65, 64))));
        assert_eq!(StoreFault::Held { message: 7 }.units(), None);
    }

    #[test]
    fn the_packed_store_counts_to_the_last_unit() {
        let mut store = Store::new(StoreKind::Packed);
        for message in 0..28 {
            store.put(message, &[0; 128]).unwrap();
        }
        assert_eq!(store.used(), 4032);
        refused(
            store.put(28, &[0; 49]),
            "refused 20 STORE_FULL layer=store place=28 wanted=65 free=64",
        );
        store.put(28, &[0; 48]).unwrap();
        refused(
            store.put(29, &[0; 1]),
            "refused 20 STORE_FULL layer=store place=29 wanted=17 free=0",
        );
        store.discard(13).unwrap();
        store.put(29, &[0; 128]).unwrap();
        assert_eq!(store.free(), 0);
    }

    #[test]
    fn clear_frees_everything() {
        let mut store = Store::new(StoreKind::Packed);
        store.put(1, b"abc").unwrap();
        store.clear();
        assert_eq!((store.used(), store.length(1)), (0, None));
    }
}

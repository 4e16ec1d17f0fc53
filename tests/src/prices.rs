//! 01, 'Prices', and 02's requests 05, 10 and 11: price files with the refusals 37 and 38, the class that is no longer sold, and the upload price
//! with 44.

use crate::log::{number16, number32};
use crate::{refuse, Refusal};

/// The prices of a class, in the library's order of fields.
#[repr(C)]
#[derive(Clone, Copy, Debug, PartialEq, Eq)]
pub struct Prices {
    /// per copy and second (01: keep)
    pub hold: u32,
    /// per transfer (01: send)
    pub transfer: u32,
}

/// The bytes of a price file; with none the built-in table holds.
pub type PriceFile<'a> = Option<&'a [u8]>;

pub const HIGHEST: u32 = 1_000_000;
pub const MOST_CLASSES: usize = 256;

/// Hold and transfer price of each class of the built-in table.
pub const BUILT_IN: [(u32, u32); 8] = [(1, 10), (1, 25), (2, 25), (3, 30), (3, 100), (5, 600), (7, 5), (1, HIGHEST)];

/// The class of the built-in table that is no longer sold.
pub const UNSOLD: u8 = 7;

/// Prices to try beside those of the built-in table: no window, a window of one second, a rest, the lowest and the highest.
pub const EDGES: [(u32, u32); 8] =
    [(1, 1), (2, 1), (2, 3), (4, 9), (HIGHEST, 1), (HIGHEST, HIGHEST - 1), (HIGHEST, HIGHEST), (400_000, HIGHEST)];

impl Prices {
    /// The prices of a class from 0 to 7 of the built-in table.
    pub fn of(class: u8) -> Prices {
        let (hold, transfer) = BUILT_IN[class as usize];
        Prices { hold, transfer }
    }

    /// Both from 1 to 1,000,000.
    pub fn in_range(self) -> bool {
        (1..=HIGHEST).contains(&self.hold) && (1..=HIGHEST).contains(&self.transfer)
    }

    /// Transfer divided by hold, rounded down.
    pub fn window(self) -> u64 {
        (self.transfer / self.hold) as u64
    }

    /// Hold price × seconds held, plus transfer price × transfers.
    pub fn cost(self, held: u64, transfers: u64) -> u64 {
        self.hold as u64 * held + self.transfer as u64 * transfers
    }
}

/// The price of an upload, or none where nothing can be uploaded.
pub type Upload = Option<u32>;

/// 44: an upload price that is not from 1 to 1,000,000.
pub fn check_upload(upload: Upload) -> Result<(), Refusal> {
    match upload {
        Some(price) if !(1..=HIGHEST).contains(&price) => refuse(44, 0),
        _ => Ok(()),
    }
}

/// Upload prices to try beside a class's own: the lowest, about a transfer, about a transfer and a second's holding, and the highest.
pub fn upload_edges(prices: Prices) -> Vec<u32> {
    let bare = prices.transfer + prices.hold;
    let mut edges = vec![1, prices.transfer - 1, prices.transfer, prices.transfer + 1, bare - 1, bare, bare + 1, HIGHEST];
    edges.retain(|price| (1..=HIGHEST).contains(price));
    edges.sort();
    edges.dedup();
    edges
}

/// The prices of each class: the built-in table, or that of a price file.
#[derive(Clone, Debug)]
pub struct Table {
    prices: Vec<Prices>,
    file: Option<Vec<u8>>,
}

impl Table {
    pub fn built_in() -> Table {
        Table { prices: (0..8).map(Prices::of).collect(), file: None }
    }

    /// The table of some hold and transfer prices as a price file gives it.
    pub fn of_pairs(pairs: &[(u32, u32)]) -> Table {
        let prices = pairs.iter().map(|&(hold, transfer)| Prices { hold, transfer }).collect();
        Table { prices, file: Some(encode(pairs)) }
    }

    /// The table that a call goes by, or the first of 37 and 38 that holds.
    pub fn read(file: PriceFile) -> Result<Table, Refusal> {
        let Some(file) = file else { return Ok(Table::built_in()) };
        if file.len() < 4 {
            return refuse(37, 0);
        }
        let count = number16(file, 0) as usize;
        if count < 1 || count > MOST_CLASSES || number16(file, 2) != 4 || file.len() != 4 + 8 * count {
            return refuse(37, 0);
        }
        let mut prices = Vec::new();
        for class in 0..count {
            let at = 4 + 8 * class;
            prices.push(Prices { hold: number32(file, at), transfer: number32(file, at + 4) });
            if !prices[class].in_range() {
                return refuse(38, class);
            }
        }
        Ok(Table { prices, file: Some(file.to_vec()) })
    }

    /// How a call is told of this table.
    pub fn file(&self) -> PriceFile<'_> {
        self.file.as_deref()
    }

    pub fn classes(&self) -> usize {
        self.prices.len()
    }

    /// The class that is no longer sold: a price file has none.
    pub fn unsold(&self) -> Option<u8> {
        self.file.is_none().then_some(UNSOLD)
    }

    /// The prices of a class below the number of classes.
    pub fn of(&self, class: u8) -> Prices {
        self.prices[class as usize]
    }
}

/// Each class of the built-in table, and of a price file with the edges, beside its table.
pub fn each_class() -> Vec<(Table, u8)> {
    let tables = [Table::built_in(), Table::of_pairs(&EDGES)];
    tables.iter().flat_map(|table| (0..8).map(|class| (table.clone(), class))).collect()
}

/// The bytes of a price file, whatever its prices.
pub fn encode(pairs: &[(u32, u32)]) -> Vec<u8> {
    let mut file = Vec::new();
    file.extend((pairs.len() as u16).to_le_bytes());
    file.extend(4u16.to_le_bytes());
    for (hold, transfer) in pairs {
        file.extend(hold.to_le_bytes());
        file.extend(transfer.to_le_bytes());
    }
    file
}

#[cfg(test)]
mod tests {
    use super::*;

    #[test]
    fn windows() {
        let windows: Vec<u64> = (0..8).map(|class| Prices::of(class).window()).collect();
        assert_eq!(windows, [10, 25, 12, 10, 33, 120, 0, 1_000_000]);
        assert_eq!(Prices { hold: HIGHEST, transfer: 1 }.window(), 0);
        assert_eq!(Prices { hold: HIGHEST, transfer: HIGHEST }.window(), 1);
    }

    #[test]
    fn layout_of_a_price_file() {
        let file = [2, 0, 4, 0, 4, 3, 2, 0, 7, 0, 0, 0, 1, 0, 0, 0, 0x40, 0x42, 0x0f, 0];
        assert_eq!(encode(&[(0x020304, 7), (1, 1_000_000)]), file);
        let table = Table::read(Some(&file)).unwrap();
        assert_eq!((table.classes(), table.file()), (2, Some(&file[..])));
        assert_eq!(table.of(0), Prices { hold: 0x020304, transfer: 7 });
        assert_eq!(table.of(1), Prices { hold: 1, transfer: 1_000_000 });
    }

    #[test]
    fn upload_prices() {
        for price in [1, 2, HIGHEST - 1, HIGHEST] {
            assert_eq!(check_upload(Some(price)), Ok(()));
        }
        for price in [0, HIGHEST + 1, 1 << 31, u32::MAX] {
            assert_eq!(check_upload(Some(price)), refuse(44, 0));
        }
        assert_eq!(check_upload(None), Ok(()));
        assert_eq!(upload_edges(Prices { hold: 3, transfer: 30 }), [1, 29, 30, 31, 32, 33, 34, HIGHEST]);
        assert_eq!(upload_edges(Prices { hold: HIGHEST, transfer: 1 }), [1, 2, HIGHEST]);
        assert_eq!(upload_edges(Prices { hold: 1, transfer: HIGHEST }), [1, HIGHEST - 1, HIGHEST]);
    }

    fn refusal(file: &[u8]) -> Option<(u8, u64)> {
        Table::read(Some(file)).err().map(|refusal| (refusal.number, refusal.place))
    }

    #[test]
    fn each_refusal_alone() {
        let good = encode(&[(1, 10), (2, 20)]);
        assert_eq!(refusal(&good), None);
        for length in (0..20).chain([21, 28]) {
            let mut file = good.clone();
            file.resize(length, 1);
            assert_eq!(refusal(&file), Some((37, 0)), "{length}");
        }
        for (at, byte) in [(0, 0), (0, 1), (0, 3), (1, 1), (2, 3), (2, 5), (3, 1)] {
            let mut file = good.clone();
            file[at] = byte;
            assert_eq!(refusal(&file), Some((37, 0)), "{at} {byte}");
        }
        assert_eq!(refusal(&encode(&[])), Some((37, 0)));
        assert_eq!(refusal(&encode(&[(1, 1); 256])), None);
        assert_eq!(refusal(&encode(&[(1, 1); 257])), Some((37, 0)));
        for pair in [(0, 1), (1, 0), (HIGHEST + 1, 1), (1, HIGHEST + 1), (u32::MAX, 1)] {
            assert_eq!(refusal(&encode(&[pair, (1, 1)])), Some((38, 0)));
            assert_eq!(refusal(&encode(&[(1, HIGHEST), pair, (0, 0)])), Some((38, 1)));
        }
    }
}

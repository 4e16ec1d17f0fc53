//! A price file judged in one pass, without memory of its own; a class's prices are taken from where they are.

use crate::prices::{PriceFile, Prices, HIGHEST, MOST_CLASSES, UNSOLD};
use crate::{refuse, Refusal};

/// The built-in table, or the prices of a file that was judged.
#[derive(Clone, Copy)]
pub(super) enum Table<'a> {
    BuiltIn,
    Loaded(&'a [u8]),
}

fn number(bytes: &[u8]) -> u32 {
    u32::from_le_bytes([bytes[0], bytes[1], bytes[2], bytes[3]])
}

/// 0 and what is above the highest price.
fn is_wrong(price: u32) -> bool {
    price.wrapping_sub(1) >= HIGHEST
}

pub(super) fn table(file: PriceFile) -> Result<Table, Refusal> {
    let Some(file) = file else { return Ok(Table::BuiltIn) };
    if file.len() < 4 {
        return refuse(37, 0);
    }
    let count = u16::from_le_bytes([file[0], file[1]]) as usize;
    if count == 0 || count > MOST_CLASSES || file[2..4] != [4, 0] || file.len() != 4 + 8 * count {
        return refuse(37, 0);
    }
    let prices = &file[4..];
    // all of them at once; where one is wrong, again for its class
    if prices.chunks_exact(4).fold(false, |wrong, price| wrong | is_wrong(number(price))) {
        let first = prices.chunks_exact(4).position(|price| is_wrong(number(price)));
        return refuse(38, first.unwrap_or(0) / 2);
    }
    Ok(Table::Loaded(prices))
}

impl Table<'_> {
    pub(super) fn classes(self) -> usize {
        match self {
            Table::BuiltIn => 8,
            Table::Loaded(prices) => prices.len() / 8,
        }
    }

    /// The class that is no longer sold: a price file has none.
    pub(super) fn unsold(self) -> Option<u8> {
        match self {
            Table::BuiltIn => Some(UNSOLD),
            Table::Loaded(_) => None,
        }
    }

    /// The prices of a class below the number of classes.
    pub(super) fn of(self, class: u8) -> Prices {
        match self {
            Table::BuiltIn => Prices::of(class),
            Table::Loaded(prices) => {
                let at = 8 * class as usize;
                Prices { hold: number(&prices[at..at + 4]), transfer: number(&prices[at + 4..at + 8]) }
            }
        }
    }
}

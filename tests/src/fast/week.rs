//! The page from the rows of a plan: each hold goes into the cells of its days, and their digits straight into the text.

use super::planner;
use crate::log::MOST_REQUESTS;
use crate::week::{DAY, WEEK};
use crate::{refuse, Refusal};

const LINE: usize = 68;

/// A number at the end of some columns, after spaces.
fn put(columns: &mut [u8], mut number: u32) {
    let mut at = columns.len();
    loop {
        at -= 1;
        columns[at] = b'0' + (number % 10) as u8;
        number /= 10;
        if number == 0 {
            break;
        }
    }
    columns[..at].fill(b' ');
}

/// The seven cells of a line and their sum.
fn put_days(line: &mut [u8], days: &[u32; 7]) {
    for (columns, cell) in line[2..58].chunks_exact_mut(8).zip(days) {
        put(columns, *cell);
    }
    put(&mut line[58..67], days.iter().sum());
    line[67] = b'\n';
}

pub fn page(file: &[u8], text: &mut [u8]) -> Result<u64, Refusal> {
    // enough for every log that is not refused
    let count = (file.len().saturating_sub(40) / 6).min(MOST_REQUESTS);
    let (mut marks, mut rows) = (vec![0; count], vec![0; 8 * count]);
    let (_, number) = planner::plan(None, None, file, &mut marks, &mut rows)?;
    if let [.., a, b, c, d, _, _] = file[40..] {
        if u32::from_le_bytes([a, b, c, d]) > WEEK {
            return refuse(36, 0);
        }
    }
    let servers = file[3] as usize;
    let needed = LINE * (servers + 1);
    if text.len() < needed {
        return refuse(31, needed);
    }
    let mut cells = [[0; 7]; 64];
    for row in rows[..4 * number as usize].chunks_exact(4).take_while(|row| row[0] == 0) {
        // it is below 64
        let days = &mut cells[row[1] as usize & 63];
        let (mut from, to) = (row[2], row[3]);
        while from < to {
            let day = from / DAY;
            let end = to.min((day + 1) * DAY);
            days[day as usize] += end - from;
            from = end;
        }
    }
    let mut sums = [0; 7];
    let (page, rest) = text.split_at_mut(needed);
    let (lines, last) = page.split_at_mut(LINE * servers);
    for (server, (line, days)) in lines.chunks_exact_mut(LINE).zip(&cells).enumerate() {
        put(&mut line[..2], server as u32);
        put_days(line, days);
        sums.iter_mut().zip(days).for_each(|(sum, cell)| *sum += cell);
    }
    last[..2].fill(b' ');
    put_days(last, &sums);
    rest.fill(0);
    Ok(needed as u64)
}

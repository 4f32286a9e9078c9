//! Which rows of long sessions become theorems: few that show much.

use crate::rows::Row;
use calls::{Call, BANK, BLOCK, FIRST_BLOCK, FIRST_SPI_BANK, KINDS};
use std::collections::BTreeSet;

/// Rows of the longest theorem.
const LONGEST: usize = 6;
/// Words that are not zero in the largest state that a theorem begins with.
const MOST_WORDS: usize = 60;
/// Lines of a theorem beside its rows and its state.
const FRAME: usize = 10;
/// Words on a line of a state, roughly.
const WORDS_A_LINE: usize = 11;

/// What may be written.
pub struct Budget {
    pub lines: usize,
    /// What checking costs, in calls that only read or write a register.
    pub cost: usize,
}

/// Something that a row shows: a kind of call with the register and what came of it.
pub type Feature = (usize, u64, u64, Vec<usize>);

/// The first offset of the block of registers that an offset is in, or what is no register.
fn block(offset: u64, size: u64) -> u64 {
    const BLOCKS: [u64; 20] = [
        0x0, 0x4, 0x8, 0xC, 0x10, 0x14, 0x18, 0x80, 0x100, 0x180, 0x200, 0x280, 0x300, 0x380,
        0x400, 0x800, 0xC00, 0xD00, 0x6100, 0x7FE0,
    ];
    let page = offset & 0x10000;
    let first = BLOCKS.iter().rfind(|&&first| first <= offset - page);
    let size = size.min(5) << 32;
    match offset {
        ..0x20000 => size | page | first.unwrap_or(&0),
        _ => size | 1,
    }
}

/// The register that a call names, by its block.
fn register(call: &Call) -> u64 {
    match *call {
        Call::ReadDistributor { offset, size, .. }
        | Call::WriteDistributor { offset, size, .. }
        | Call::ReadFrame { offset, size, .. }
        | Call::WriteFrame { offset, size, .. } => block(offset, size),
        Call::ReadSystem { encoding, .. } | Call::WriteSystem { encoding, .. } => encoding & 0xFFFF,
        Call::GetAttribute { group, attribute }
        | Call::SetAttribute {
            group, attribute, ..
        } => {
            let low = attribute & 0xFFFF_FFFF;
            let named = match group {
                1 | 5 => block(low, 4),
                6 => low & 0xFFFF,
                _ => u64::from(low >= 32),
            };
            group.min(8) << 40 | named
        }
        Call::ChangeLine { id, level, .. } => u64::from(id >= 32) << 1 | u64::from(level),
        _ => 0,
    }
}

/// The field that a word of the state is, whatever vCPU or bank it belongs to.
fn field(at: usize) -> usize {
    match at {
        0..16 => at,
        16..272 => 16 + at % 32,
        272..768 => 272 + at % 16,
        _ => 768,
    }
}

/// What a row shows: its kind granted or refused so; a register with what was answered and which fields changed; a rule.
fn features(row: &Row) -> Vec<Feature> {
    let kind = row.call.kind();
    let refusal = row.answer.min(0).unsigned_abs();
    let outcome = (kind, OUTCOME, refusal, Vec::new());
    let answer = match row.answer {
        ..0 => return vec![outcome],
        0 => 0,
        1023 => NONE,
        1..32 => 2,
        _ => 3,
    };
    let words = row.before.iter().zip(row.after.iter()).enumerate();
    let changed = words.filter(|(_, (old, new))| old != new);
    let fields: BTreeSet<usize> = changed.map(|(at, _)| field(at)).collect();
    let fields = fields.into_iter().take(3).collect();
    let mut shown = vec![outcome, (kind, register(&row.call), answer, fields)];
    if sets_default(row) || clears_bits(row) {
        shown.push((kind, OUTCOME, register(&row.call), Vec::new()));
    }
    shown
}

/// Whether a device is initialised whose count is unset, and gets the default.
fn sets_default(row: &Row) -> bool {
    let [before, after] = [&row.before, &row.after].map(|words| (words[0], words[1]));
    before == (0, 0) && after == (1, 256)
}

/// Whether an interrupt is acknowledged whose priority tells the binary point from those beside it: the highest bit that
/// is cleared and the one above it are set.
fn clears_bits(row: &Row) -> bool {
    let (v, group) = match row.call {
        Call::ReadSystem {
            v,
            encoding: 0xC640,
        } => (v, 0),
        Call::ReadSystem {
            v,
            encoding: 0xC660,
        } => (v, 1),
        _ => return false,
    };
    let block = FIRST_BLOCK + BLOCK * v;
    let (id, ap) = (row.answer as usize, block + 23 + group);
    let bank = match id {
        ..32 => block,
        _ => FIRST_SPI_BANK + BANK * (id / 32 - 1),
    };
    let set = row.before[ap] ^ row.after[ap];
    let priority = row.before[bank + 5 + id % 32 / 4] >> (8 * (id % 4)) & 0xFF;
    // the bits from this one down are cleared, and no other
    let cleared = priority ^ 8 * set.trailing_zeros().min(31);
    set != 0 && cleared != 0 && priority >> (32 - cleared.leading_zeros()) & 1 == 1
}

/// IAR and HPPIR of both groups, and the class of their answer where there is no interrupt to give.
const SEARCHES: [u64; 4] = [0xC640, 0xC642, 0xC660, 0xC662];
const NONE: u64 = 1;

/// In the place of a register: whether the call was granted, or how it was refused.
const OUTCOME: u64 = u64::MAX;

const MOST: usize = 20;

/// How much it is worth to show something: most are outcomes and interrupts that are given.
fn worth((kind, register, answer, fields): &Feature) -> usize {
    let has_changed = !fields.is_empty();
    match KINDS[*kind].0 {
        _ if *register == OUTCOME => MOST,
        "query_signal" if *answer != 0 => 12,
        "read_system" if SEARCHES.contains(register) && *answer != NONE => 2 * MOST,
        "write_system" if has_changed => 4,
        _ if has_changed => 2,
        _ => 1,
    }
}

/// What checking a row costs: a search goes over all interrupts, a record over all words.
fn cost(row: &Row) -> usize {
    let banks = (row.after[1] as usize).div_ceil(64);
    let searches = match row.call {
        Call::QuerySignal { .. } => true,
        Call::ReadSystem { encoding, .. } => SEARCHES.contains(&encoding),
        _ => false,
    };
    match row.call {
        Call::Save { .. } | Call::Restore { .. } => 2 + banks,
        _ if searches => 1 + banks,
        _ => 1,
    }
}

fn used(words: &[u32]) -> usize {
    words.iter().filter(|&&word| word != 0).count()
}

/// The lines that a theorem of these rows takes.
fn lines(rows: &[Row]) -> usize {
    FRAME + rows.len() + used(&rows[0].before).div_ceil(WORDS_A_LINE)
}

/// Some rows of a list, one after another, and what they show and take.
struct Window<'a> {
    rows: &'a [Row],
    features: Vec<Feature>,
    lines: usize,
    cost: usize,
}

impl Window<'_> {
    /// What the rows show that is new, for their lines and their cost.
    fn gain(&self, shown: &BTreeSet<Feature>) -> usize {
        let new = self
            .features
            .iter()
            .filter(|&feature| !shown.contains(feature));
        new.map(worth).sum::<usize>() * 1000 / (self.lines + 2 * self.cost)
    }
}

/// Every few rows that follow each other, on devices of the count.
fn windows(lists: &[Vec<Row>], count: usize) -> Vec<Window<'_>> {
    let of_count = |row: &Row| [0, count].contains(&(row.after[1] as usize)) || sets_default(row);
    let of_length = |n| lists.iter().flat_map(move |list| list.windows(n));
    let all = (1..=LONGEST).flat_map(of_length);
    let fit = all.filter(|rows| used(&rows[0].before) <= MOST_WORDS && rows.iter().all(of_count));
    let window = |rows: &'_ [Row]| {
        let features: BTreeSet<Feature> = rows.iter().flat_map(features).collect();
        (
            features.into_iter().collect(),
            lines(rows),
            rows.iter().map(cost).sum(),
        )
    };
    fit.map(|rows| {
        let (features, lines, cost) = window(rows);
        #[rustfmt::skip]
        return Window { rows, features, lines, cost };
    })
    .collect()
}

/// What the theorems of all files show.
pub type Shown = BTreeSet<Feature>;

/// Takes, again and again, the rows that show the most that is new for what they take.
/// What is worth most is shown once in all files, the rest once in each.
pub fn choose(
    lists: &[Vec<Row>],
    count: usize,
    budget: Budget,
    shown: &mut Shown,
) -> Vec<Vec<Row>> {
    let windows = windows(lists, count);
    let (mut chosen, mut left) = (Vec::new(), budget);
    shown.retain(|feature| worth(feature) >= MOST);
    loop {
        let fits = |window: &&Window| window.lines <= left.lines && window.cost <= left.cost;
        let best = windows
            .iter()
            .filter(fits)
            .max_by_key(|window| window.gain(shown));
        let Some(best) = best.filter(|window| window.gain(shown) > 0) else {
            break;
        };
        left.lines -= best.lines;
        left.cost -= best.cost;
        shown.extend(best.features.iter().cloned());
        chosen.push(best.rows.to_vec());
    }
    chosen
}

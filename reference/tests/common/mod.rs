//! What several test files share. Each uses only a part of it.
#![allow(dead_code)]

use reference::costs::Costs;
use reference::limits::{MAX_AGENTS, MAX_CHORES, MAX_WEIGHT, MIN_SCRATCH};
use reference::share_out::owner_byte;
use reference::sheet::{row_bytes, Sheet, HEADER_BYTES};
use reference::{allocate, check_prices, compose, PriceVerdict, ShareOut};

/// The sheets to try, by their letter.
pub fn a() -> Vec<u8> {
    compose::sheet(1, 2, &[""])
}
pub fn b() -> Vec<u8> {
    compose::sheet(1, 3, &["eeee", "dddd"])
}
pub fn c() -> Vec<u8> {
    compose::sheet(1, 3, &["eeeee", "dddde"])
}
pub fn d() -> Vec<u8> {
    compose::sheet(1, 2, &["eee", "eee"])
}
pub fn e() -> Vec<u8> {
    compose::sheet(1, 2, &["ed", "de"])
}
pub fn f() -> Vec<u8> {
    compose::sheet(1, 2, &["de", "de"])
}
pub fn g() -> Vec<u8> {
    compose::sheet(1, 3, &["eeedd", "ddded", "eeede"])
}

/// The owners, prices, moves and cuts of a sheet, or its refusal number.
pub type Outcome = Result<(Vec<u8>, Vec<u32>, u64, u8), u8>;

/// The chores of a sheet by its header; 0 where that is cut short.
pub fn chores_of(sheet: &[u8]) -> usize {
    let two_bytes = |at: &[u8]| 256 * usize::from(at[0]) + usize::from(at[1]);
    sheet.get(1..3).map_or(0, two_bytes)
}

/// Shares a sheet out with lists of its own length, by its header.
pub fn share(sheet: &[u8]) -> Outcome {
    let chores = chores_of(sheet);
    let mut owners = vec![0; chores];
    let mut prices = vec![0; chores];
    let mut scratch = vec![7; MIN_SCRATCH];
    match allocate(sheet, &mut owners, &mut prices, &mut scratch) {
        ShareOut::Refused(number) => Err(number),
        ShareOut::Shared { moves, cuts } => Ok((owners, prices, moves, cuts)),
    }
}

/// Faults of a sheet, in the order in which they are found.
pub const SHEET_FAULTS: [u8; 6] = [5, 1, 2, 3, 5, 4];

/// A sheet of easy marks, of this size unless that is a fault, with the faults
/// whose bits are set, in the order above. Its weights are 2 and 3. The last of
/// the faults needs chores that leave bits of a byte over.
pub fn faulty_sheet(agents: usize, chores: usize, faults: usize) -> Vec<u8> {
    let has = |fault: usize| faults >> fault & 1 == 1;
    let agents = if has(1) { 33 } else { agents };
    let chores = if has(2) { 4_001 } else { chores };
    let difficult = if has(3) { 2 } else { 3 };
    let mut sheet = compose::header(agents, chores, 2, difficult).to_vec();
    sheet.resize(HEADER_BYTES + agents * row_bytes(chores), 0);
    if has(5) {
        *sheet.last_mut().unwrap() |= 1;
    }
    if has(4) {
        sheet.push(0);
    }
    if has(0) {
        sheet.truncate(6);
    }
    sheet
}

/// The number of the first fault whose bit is set.
pub fn first_fault(faults: usize, numbers: &[u8]) -> Option<u8> {
    let first = (0..numbers.len()).find(|fault| faults >> fault & 1 == 1);
    first.map(|fault| numbers[fault])
}

/// Up to 3 agents and 4 chores.
pub fn tiny_sizes() -> impl Iterator<Item = (usize, usize)> {
    (1..=3).flat_map(|agents| (0..=4).map(move |chores| (agents, chores)))
}

/// The rows of every sheet of this size.
pub fn every_rows(agents: usize, chores: usize) -> impl Iterator<Item = Vec<String>> {
    (0..1_usize << (agents * chores)).map(move |code| {
        let is_easy = |place: usize| code >> place & 1 == 0;
        let row = |i: usize| (0..chores).map(|r| mark(is_easy(i * chores + r))).collect();
        (0..agents).map(row).collect()
    })
}

/// Every list of owners, agents counted from 0.
pub fn all_lists(agents: usize, chores: usize) -> Vec<Vec<usize>> {
    let mut lists = vec![Vec::new()];
    for _ in 0..chores {
        let with = |list: &Vec<usize>, agent: usize| [&list[..], &[agent]].concat();
        let longer = |list| (0..agents).map(move |agent| with(list, agent));
        lists = lists.iter().flat_map(longer).collect();
    }
    lists
}

/// The owners as bytes, counted from 1.
pub fn owner_bytes(owner: &[usize]) -> Vec<u8> {
    owner.iter().map(|&agent| owner_byte(agent)).collect()
}

/// Four bytes a price, high byte first.
pub fn as_bytes(prices: &[u32]) -> Vec<u8> {
    prices.iter().copied().flat_map(u32::to_be_bytes).collect()
}

/// Dear is what its owner finds difficult, and all chores of whoever finds a
/// dear one easy.
fn prices(costs: &Costs, owner: &[usize]) -> Vec<u32> {
    let mut dear: Vec<bool> = (0..costs.chores)
        .map(|r| !costs.finds_easy(owner[r], r))
        .collect();
    loop {
        let before = dear.clone();
        let takes = |i: usize| (0..costs.chores).any(|r| before[r] && costs.finds_easy(i, r));
        let takers: Vec<bool> = (0..costs.agents).map(takes).collect();
        for (dear, &agent) in dear.iter_mut().zip(owner) {
            *dear |= takers[agent];
        }
        if dear == before {
            break;
        }
    }
    let price = |dear: &bool| costs.difficult * if *dear { costs.difficult } else { costs.easy };
    dear.iter().map(|dear| price(dear) as u32).collect()
}

/// With prices under which each chore is a best chore of its owner, nothing
/// dominates: whatever sums to the same price costs nobody less.
pub fn assert_not_wasteful(sheet: &[u8], owners: &[u8]) {
    let costs = Costs::as_marked(&Sheet::parse(sheet).unwrap());
    let owner: Vec<usize> = owners.iter().map(|&i| usize::from(i) - 1).collect();
    let verdict = check_prices(sheet, owners, &prices(&costs, &owner));
    assert!(
        matches!(
            verdict,
            PriceVerdict::Accepted | PriceVerdict::PriceEnvy(..)
        ),
        "{sheet:?} {owners:?} {verdict:?}"
    );
}

/// A small generator of numbers that are the same on every run.
pub struct Random(u64);

impl Random {
    pub fn new(seed: u64) -> Self {
        Random(seed)
    }

    /// A number below `bound`.
    pub fn below(&mut self, bound: usize) -> usize {
        // splitmix64
        self.0 = self.0.wrapping_add(0x9e37_79b9_7f4a_7c15);
        let mut word = self.0;
        word = (word ^ (word >> 30)).wrapping_mul(0xbf58_476d_1ce4_e5b9);
        word = (word ^ (word >> 27)).wrapping_mul(0x94d0_49bb_1331_11eb);
        ((word ^ (word >> 31)) % bound as u64) as usize
    }

    /// Any number of agents and up to 200 chores; now and then few agents and up
    /// to 4,000 chores, often as many or nearly.
    pub fn size(&mut self) -> (usize, usize) {
        match self.below(60) {
            0 => (1 + self.below(4), MAX_CHORES - self.below(9)),
            1 => (1 + self.below(4), self.below(MAX_CHORES + 1)),
            _ => (1 + self.below(MAX_AGENTS), self.below(201)),
        }
    }

    /// Weights that keep the rule, often near its ends.
    pub fn weights(&mut self) -> (u16, u16) {
        let most = MAX_WEIGHT as u16;
        match self.below(6) {
            0 => (1, 2),
            1 => (1, 3),
            2 => (2, 3),
            3 => (1, most),
            4 => (most - 1, most),
            _ => {
                let difficult = 2 + self.below(MAX_WEIGHT as usize - 1) as u16;
                (1 + self.below(difficult as usize - 1) as u16, difficult)
            }
        }
    }

    /// Any weights whose difficult one is a multiple, mostly a small one.
    pub fn factored(&mut self) -> (u16, u16) {
        let most = [1, 9, 500][self.below(3)];
        let easy = 1 + self.below(most);
        let most = (MAX_WEIGHT as usize / easy).min([9, 1_000][self.below(2)]);
        let difficult = easy * (2 + self.below(most - 1));
        (easy as u16, difficult as u16)
    }

    /// Rows of any shape below.
    pub fn rows(&mut self, agents: usize, chores: usize) -> Vec<String> {
        match self.below(3) {
            0 => self.rows_of_tempers(agents, chores),
            1 => self.rows_of_blocks(agents, chores),
            _ => self.rows_of_few_liked(agents, chores),
        }
    }

    /// Agents and chores differ in how often a mark is easy.
    fn rows_of_tempers(&mut self, agents: usize, chores: usize) -> Vec<String> {
        let of_chore: Vec<usize> = (0..chores).map(|_| self.below(5)).collect();
        let mut row = || {
            let of_agent = self.below(5);
            let easy = |&of_chore: &usize| self.below(16) < of_agent * of_chore;
            of_chore.iter().map(easy).map(mark).collect()
        };
        (0..agents).map(|_| row()).collect()
    }

    /// Most chores are easy for one agent only, with unequal shares of them.
    /// Such sheets take the most rounds.
    fn rows_of_blocks(&mut self, agents: usize, chores: usize) -> Vec<String> {
        let skew = 1 + self.below(4);
        let noise = self.below(4);
        let turn = self.below(agents);
        let lowest = |random: &mut Self| (0..skew).map(|_| random.below(agents)).min().unwrap();
        let home: Vec<usize> = (0..chores)
            .map(|_| (turn + 5 * lowest(self)) % agents)
            .collect();
        let mut row = |agent: usize| {
            let easy = |&home: &usize| home == agent || self.below(64) < noise;
            home.iter().map(easy).map(mark).collect()
        };
        (0..agents).map(&mut row).collect()
    }

    /// Few chores are easy for anybody. Each agent likes one of them at least,
    /// or its row would be read as all easy.
    fn rows_of_few_liked(&mut self, agents: usize, chores: usize) -> Vec<String> {
        let liked: Vec<usize> = (0..chores.div_ceil(4))
            .map(|_| self.below(chores))
            .collect();
        let mut row = || {
            let mut row = vec![false; chores];
            for &chore in &liked {
                row[chore] = self.below(3) == 0;
            }
            if chores > 0 {
                row[liked[self.below(liked.len())]] = true;
            }
            row.into_iter().map(mark).collect()
        };
        (0..agents).map(|_| row()).collect()
    }

    pub fn sheet(&mut self, agents: usize, chores: usize) -> Vec<u8> {
        let (easy, difficult) = self.weights();
        compose::sheet(easy, difficult, &self.rows(agents, chores))
    }

    /// One owner per chore.
    pub fn owners(&mut self, agents: usize, chores: usize) -> Vec<u8> {
        (0..chores).map(|_| 1 + self.below(agents) as u8).collect()
    }

    /// As many chores for each as there can be, in any order: of what nobody
    /// envies at all, some is wasteful.
    pub fn dealt(&mut self, agents: usize, chores: usize) -> Vec<u8> {
        let mut owners: Vec<u8> = (0..chores)
            .map(|chore| 1 + (chore % agents) as u8)
            .collect();
        for end in (1..chores).rev() {
            owners.swap(end, self.below(end + 1));
        }
        owners
    }
}

fn mark(easy: bool) -> char {
    if easy {
        'e'
    } else {
        'd'
    }
}

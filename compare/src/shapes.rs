//! Random sheets of all shapes.

use crate::random::{factored_weights, shuffle, weights, Random};
use crate::{header, sizes};
use reference::compose;
use reference::costs::Costs;
use reference::limits::{MAX_AGENTS, MAX_CHORES};
use reference::sheet::{Sheet, HEADER_BYTES};

/// What the rows of a sheet are like.
#[derive(Debug, Clone, Copy, PartialEq, Eq)]
pub enum Shape {
    /// Agents differ in how many chores they like; some like none.
    Tempers,
    /// Each chore is liked by one agent, and some by none; the numbers of
    /// liked chores differ widely.
    Disjoint,
    /// Some agents like one chore, two, three and so on, the others all the
    /// rest: nothing makes more cuts.
    Ladder,
    /// Every agent likes something, but most chores nobody does.
    Dear,
    /// All rows are the same, so that sums are often equal.
    Alike,
    /// Most rows have difficult marks only.
    Difficult,
    /// Each agent likes some chores with the agent after it, and no others: a
    /// surplus goes from hand to hand, in long chains of moves.
    Path,
}

pub const SHAPES: [Shape; 7] = [
    Shape::Tempers,
    Shape::Disjoint,
    Shape::Ladder,
    Shape::Dear,
    Shape::Alike,
    Shape::Difficult,
    Shape::Path,
];

/// For each agent and chore, whether the mark is easy.
type Likes = Vec<Vec<bool>>;

pub fn rows(random: &mut Random, shape: Shape, agents: usize, chores: usize) -> Vec<String> {
    let likes = match shape {
        Shape::Tempers => tempers(random, agents, chores),
        Shape::Disjoint => disjoint(random, agents, chores),
        Shape::Ladder => ladder(random, agents, chores),
        Shape::Dear => dear(random, agents, chores),
        Shape::Alike => vec![tempers(random, 1, chores).remove(0); agents],
        Shape::Difficult => difficult(random, agents, chores),
        Shape::Path => path(random, agents, chores),
    };
    let mark = |&easy: &bool| if easy { 'e' } else { 'd' };
    likes
        .iter()
        .map(|row| row.iter().map(mark).collect())
        .collect()
}

fn tempers(random: &mut Random, agents: usize, chores: usize) -> Likes {
    let mut row = || {
        let percent = [0, 2, 8, 25, 50, 80, 100][random.below(7)];
        (0..chores).map(|_| random.chance(percent)).collect()
    };
    (0..agents).map(|_| row()).collect()
}

fn disjoint(random: &mut Random, agents: usize, chores: usize) -> Likes {
    let steepness = 1 + random.below(4);
    let noise = [0, 0, 1, 3][random.below(4)];
    let turn = random.below(agents);
    let homes: Vec<usize> = (0..chores)
        .map(|_| {
            let lowest = (0..steepness).map(|_| random.below(agents + 1)).min();
            (lowest.unwrap_or(0) * 5 + turn) % (agents + 1)
        })
        .collect();
    let mut likes = |agent: usize, home: usize| home == agent || random.chance(noise);
    let mut row = |agent: usize| homes.iter().map(|&home| likes(agent, home)).collect();
    (0..agents).map(&mut row).collect()
}

fn ladder(random: &mut Random, agents: usize, chores: usize) -> Likes {
    let rungs = random.below(agents);
    let step = 1 + random.below(2);
    let mut homes = Vec::with_capacity(chores);
    for agent in 0..rungs {
        homes.extend(vec![agent; 1 + step * agent]);
    }
    homes.resize(chores, rungs);
    shuffle(random, &mut homes);
    let mut row = |agent: usize| homes.iter().map(|&home| home == agent.min(rungs)).collect();
    let mut likes: Likes = (0..agents).map(&mut row).collect();
    shuffle(random, &mut likes);
    likes
}

fn dear(random: &mut Random, agents: usize, chores: usize) -> Likes {
    // Anywhere, so that liked chores open before the others, between and after.
    let mut liked: Vec<usize> = (0..chores).collect();
    shuffle(random, &mut liked);
    liked.truncate((chores / (2 + random.below(5))).max(1));
    let percent = [5, 30, 60][random.below(3)];
    let mut row = |_| {
        let mut row = vec![false; chores];
        for &chore in &liked {
            row[chore] = random.chance(percent);
        }
        // Otherwise the row may be read as all easy.
        if chores > 0 {
            row[liked[random.below(liked.len())]] = true;
        }
        row
    };
    (0..agents).map(&mut row).collect()
}

fn difficult(random: &mut Random, agents: usize, chores: usize) -> Likes {
    let mut likes = disjoint(random, agents, chores);
    for row in &mut likes {
        if random.chance(60) {
            row.fill(false);
        }
    }
    likes
}

fn path(random: &mut Random, agents: usize, chores: usize) -> Likes {
    let noise = [0, 0, 1][random.below(3)];
    // The first two agents have more in common than any others.
    let surplus = random.below(chores + 1) / 2;
    let first = |chore: usize| chore.saturating_sub(surplus) % (agents - 1).max(1);
    let mut likes = |agent: usize, chore: usize| {
        agent == first(chore) || agent == first(chore) + 1 || random.chance(noise)
    };
    let mut row = |agent: usize| (0..chores).map(|chore| likes(agent, chore)).collect();
    (0..agents).map(&mut row).collect()
}

pub fn sheet(random: &mut Random, shape: Shape, agents: usize, chores: usize) -> Vec<u8> {
    let (easy, difficult) = weights(random);
    compose::sheet(easy, difficult, &rows(random, shape, agents, chores))
}

/// Each agent finds easy what the agent before it does, and one part more. Of the
/// plain shapes that were tried, lists that respect the measure take the most
/// improvements with these.
pub fn nested(agents: usize, chores: usize, (easy, difficult): (u16, u16)) -> Vec<u8> {
    let row = |agent: usize| {
        let liked = (agent + 1) * chores / agents;
        "e".repeat(liked) + &"d".repeat(chores - liked)
    };
    let rows: Vec<String> = (0..agents).map(row).collect();
    compose::sheet(easy, difficult, &rows)
}

/// The same sheet with weights of which one is a multiple of the other.
pub fn factored(random: &mut Random, mut sheet: Vec<u8>) -> Vec<u8> {
    let (agents, chores) = (header::agents(&sheet), header::chores(&sheet));
    let (easy, difficult) = factored_weights(random);
    let header = compose::header(agents, chores, easy.into(), difficult.into());
    sheet[..HEADER_BYTES].copy_from_slice(&header);
    sheet
}

/// Often one in which most chores open by count, since nobody likes them.
pub fn any_shape(random: &mut Random) -> Shape {
    if random.chance(40) {
        return Shape::Dear;
    }
    SHAPES[random.below(SHAPES.len())]
}

/// Whether half of the chores or more, and three at least, are difficult for
/// everybody, as the share-out reads the sheet.
pub fn is_dear(sheet: &Sheet) -> bool {
    let costs = Costs::as_read(sheet);
    let dear = |&chore: &usize| !(0..costs.agents).any(|agent| costs.finds_easy(agent, chore));
    let count = (0..costs.chores).filter(dear).count();
    count >= 3 && 2 * count >= costs.chores
}

/// Of any shape, with up to so many agents.
pub fn sheet_of(random: &mut Random, agents: usize, chores: usize) -> Vec<u8> {
    let agents = 1 + random.below(agents);
    let shape = any_shape(random);
    sheet(random, shape, agents, chores)
}

/// Few agents and few chores, so that there are few allocations to try.
pub fn tiny_sheet(random: &mut Random) -> Vec<u8> {
    let (agents, most) = [(2, 10), (4, 6), (4, 6)][random.below(3)];
    let chores = sizes::chores(random, most);
    sheet_of(random, agents, chores)
}

/// Up to 6 agents and 17 chores.
pub fn small_sheet(random: &mut Random) -> Vec<u8> {
    let chores = sizes::chores(random, 17);
    sheet_of(random, 6, chores)
}

/// Up to 12 agents and 65 chores.
pub fn medium_sheet(random: &mut Random) -> Vec<u8> {
    let chores = sizes::chores(random, 65);
    sheet_of(random, 12, chores)
}

/// Up to 32 agents and 200 chores, often as many.
pub fn large_sheet(random: &mut Random) -> Vec<u8> {
    let chores = if random.chance(30) {
        200
    } else {
        sizes::chores(random, 200)
    };
    if random.chance(30) {
        let shape = any_shape(random);
        return sheet(random, shape, MAX_AGENTS, chores);
    }
    sheet_of(random, MAX_AGENTS, chores)
}

/// 32 agents and 200 chores, with many cuts often.
pub fn wide_sheet(random: &mut Random) -> Vec<u8> {
    let shape = if random.chance(30) {
        Shape::Ladder
    } else {
        any_shape(random)
    };
    sheet(random, shape, MAX_AGENTS, 200)
}

/// Up to 4 agents and 200 chores or more, mostly as many as there may be or
/// nearly.
pub fn long_sheet(random: &mut Random) -> Vec<u8> {
    let chores = sizes::many_chores(random);
    sheet_of(random, 4, chores)
}

/// As many agents and chores as there may be.
pub fn largest_sheet(random: &mut Random) -> Vec<u8> {
    let shape = any_shape(random);
    sheet(random, shape, MAX_AGENTS, MAX_CHORES)
}

/// Small sheets mostly, some of up to 200 chores.
pub fn any_sheet(random: &mut Random) -> Vec<u8> {
    match random.below(20) {
        0 | 1 => large_sheet(random),
        2..=5 => medium_sheet(random),
        _ => small_sheet(random),
    }
}

// The comparison of the benchmark: sheets and certificates in plain Rust, with the standard library alone. docs/ has the rules.
//
//   plain make       writes a largest sheet and a certificate that passes for it, as big-endian words
//   plain check      reads such words; prints the sizes and the verdict
//   plain time N     reads such words; prints the best and the median nanoseconds of N rounds of each

use std::hint::black_box;
use std::io::{Read, Write};
use std::process::ExitCode;
use std::time::Instant;

// Kinds of words.
const HEAD: u32 = 1;
const BLOCK: u32 = 2;
const LBLOCK: u32 = 3;
const COST: u32 = 4;
const EDGE: u32 = 5;
const LOOP: u32 = 6;
const BACK: u32 = 7;
const FACT: u32 = 8;
const CLAIM: u32 = 9;
const HIGH: u32 = 10;
const LOW: u32 = 11;
const END: u32 = 15;

// Limits of a sheet.
const MOST_SETS: usize = 64;
const MOST_BLOCKS: usize = 128;
const MOST_LBLOCKS: usize = 512;
const MOST_EDGES: usize = 512;
const MOST_LOOPS: usize = 32;
const MOST_BACKS: usize = 64;
const MOST_FACTS: usize = 32;
const MOST_CONFLICTS: usize = 4096;
const MOST_ROWS: usize = 2 * MOST_BLOCKS + MOST_LOOPS + MOST_FACTS + 3 * MOST_LBLOCKS + MOST_SETS;

// The number and the place of a refusal.
type Fault = (u32, usize);

fn kind(word: u32) -> u32 {
    word >> 28
}

fn payload(word: u32) -> u32 {
    word & 0x0fff_ffff
}

// ---- Sheets

#[derive(Clone, Copy)]
struct Block {
    first: u16,
    lblocks: u16,
}

#[derive(Clone, Copy)]
struct LBlock {
    block: u16,
    set: u16,
    tag: u32,
    hit: u16,
    extra: u16,
}

#[derive(Clone, Copy)]
struct Edge {
    from: u8,
    to: u8,
}

// A loop; bit b of `backs` says that b is the source of a back edge.
#[derive(Clone, Copy)]
struct Loop {
    header: u8,
    bound: u16,
    backs: u128,
}

#[derive(Clone, Copy)]
struct Fact {
    i: u8,
    j: u8,
    k: u16,
}

// START as `from` and END as `to`; all others are l-blocks.
const NONE: u16 = u16::MAX;

// A conflict edge. `row` is the place of its set among the used sets.
#[derive(Clone, Copy, PartialEq, Debug)]
struct Conflict {
    row: u16,
    from: u16,
    to: u16,
}

struct Sheet {
    sets: usize,
    blocks: Vec<Block>,
    lblocks: Vec<LBlock>,
    edges: Vec<Edge>,
    loops: Vec<Loop>,
    facts: Vec<Fact>,
    // Bit b of `next[a]` says that there is an edge from a to b.
    next: [u128; MOST_BLOCKS],
    // The loop of each header.
    loop_at: [Option<u8>; MOST_BLOCKS],
    used: usize,
    conflicts: Vec<Conflict>,
}

impl Sheet {
    fn rows(&self) -> usize {
        2 * self.blocks.len()
            + self.loops.len()
            + self.facts.len()
            + 3 * self.lblocks.len()
            + self.used
    }

    fn columns(&self) -> usize {
        self.blocks.len() + self.edges.len() + self.lblocks.len() + self.conflicts.len()
    }

    // How many coefficients are not 0.
    fn nonzeros(&self) -> usize {
        let blocks = 2 * self.blocks.len() + 2 * self.lblocks.len();
        let facts: usize = self.facts.iter().map(|f| 1 + (f.k != 0) as usize).sum();
        let edges: usize = self
            .edges
            .iter()
            .map(|e| match self.loop_at[e.to as usize] {
                None => 2,
                Some(l) => {
                    let l = &self.loops[l as usize];
                    2 + (l.backs >> e.from & 1 == 1 || l.bound != 0) as usize
                }
            })
            .sum();
        let conflicts: usize = self
            .conflicts
            .iter()
            .map(|c| match (c.from, c.to) {
                (NONE, NONE) => 1,
                (NONE, _) => 3,
                (_, NONE) => 1,
                (u, v) => {
                    2 + (self.lblocks[u as usize].tag != self.lblocks[v as usize].tag) as usize
                }
            })
            .sum();
        blocks + facts + edges + self.lblocks.len() + conflicts
    }
}

// Whether the loop that was read last has a back edge and an entry edge.
fn whole(loops: &[Loop], before: &[u128; MOST_BLOCKS]) -> bool {
    match loops.last() {
        None => true,
        Some(l) => l.backs != 0 && before[l.header as usize] & !l.backs != 0,
    }
}

// How the conflict edges are found.
#[derive(Clone, Copy)]
enum Search {
    // By marking l-blocks, one after another.
    Marks,
    // By blocks, with a bit for each.
    Bits,
}

fn read_sheet(words: &[u32], search: Search) -> Result<Sheet, Fault> {
    let word = |i: usize| match words.get(i) {
        Some(&w) => Ok((kind(w), payload(w))),
        None => Err((2, words.len())),
    };
    let demand =
        |ok: bool, number: u32, place: usize| if ok { Ok(()) } else { Err((number, place)) };

    let (k, p) = word(0)?;
    demand(k == HEAD, 1, 0)?;
    demand((1..=MOST_SETS as u32).contains(&p), 4, 0)?;
    let sets = p as usize;
    let mut i = 1;

    let mut blocks = Vec::with_capacity(MOST_BLOCKS);
    let mut lblocks = Vec::with_capacity(MOST_LBLOCKS);
    let (mut k, mut p) = word(i)?;
    demand(k == BLOCK, 1, i)?;
    while k == BLOCK {
        demand((1..=16).contains(&p), 4, i)?;
        demand(blocks.len() < MOST_BLOCKS, 5, i)?;
        let block = blocks.len() as u16;
        blocks.push(Block {
            first: lblocks.len() as u16,
            lblocks: p as u16,
        });
        i += 1;
        for _ in 0..p {
            let (k, at) = word(i)?;
            demand(k == LBLOCK, 1, i)?;
            demand(((at >> 20) as usize) < sets, 4, i)?;
            demand(lblocks.len() < MOST_LBLOCKS, 5, i)?;
            let (k, cost) = word(i + 1)?;
            demand(k == COST, 1, i + 1)?;
            lblocks.push(LBlock {
                block,
                set: (at >> 20) as u16,
                tag: at & 0xf_ffff,
                hit: (cost >> 14) as u16,
                extra: (cost & 0x3fff) as u16,
            });
            i += 2;
        }
        (k, p) = word(i)?;
    }
    let n = blocks.len();

    let mut edges = Vec::with_capacity(MOST_EDGES);
    let mut next = [0u128; MOST_BLOCKS];
    let mut before = [0u128; MOST_BLOCKS];
    while k == EDGE {
        demand(edges.len() < MOST_EDGES, 5, i)?;
        let (from, to) = ((p >> 14) as usize, (p & 0x3fff) as usize);
        demand(
            from < n && to < n && next[from] >> to & 1 == 0 && to != 0 && from != n - 1,
            6,
            i,
        )?;
        next[from] |= 1 << to;
        before[to] |= 1 << from;
        edges.push(Edge {
            from: from as u8,
            to: to as u8,
        });
        i += 1;
        (k, p) = word(i)?;
    }

    let mut loops: Vec<Loop> = Vec::with_capacity(MOST_LOOPS);
    let mut loop_at = [None; MOST_BLOCKS];
    let mut backs = 0;
    while k == LOOP {
        demand(loops.len() < MOST_LOOPS, 5, i)?;
        demand(whole(&loops, &before), 7, i)?;
        let header = (p >> 14) as usize;
        demand(header < n && loop_at[header].is_none(), 7, i)?;
        loop_at[header] = Some(loops.len() as u8);
        let mut this = Loop {
            header: header as u8,
            bound: (p & 0x3fff) as u16,
            backs: 0,
        };
        i += 1;
        (k, p) = word(i)?;
        while k == BACK {
            demand(backs < MOST_BACKS, 5, i)?;
            let from = p as usize;
            demand(
                from < n && before[header] >> from & 1 == 1 && this.backs >> from & 1 == 0,
                7,
                i,
            )?;
            this.backs |= 1 << from;
            backs += 1;
            i += 1;
            (k, p) = word(i)?;
        }
        loops.push(this);
    }

    // The last loop is still open at the first word after it, and whole at all later ones.
    let mut facts = Vec::with_capacity(MOST_FACTS);
    while k == FACT {
        demand(facts.len() < MOST_FACTS, 5, i)?;
        demand(whole(&loops, &before), 7, i)?;
        let (a, b) = ((p >> 21) as usize, (p >> 14 & 0x7f) as usize);
        demand(a < n && b < n && a != b, 8, i)?;
        facts.push(Fact {
            i: a as u8,
            j: b as u8,
            k: (p & 0x3fff) as u16,
        });
        i += 1;
        (k, p) = word(i)?;
    }

    demand(k == END, 1, i)?;
    demand(p as usize == i, 3, i)?;
    demand(whole(&loops, &before), 7, i)?;
    demand(words.len() == i + 1, 3, i + 1)?;

    let mut sheet = Sheet {
        sets,
        blocks,
        lblocks,
        edges,
        loops,
        facts,
        next,
        loop_at,
        used: 0,
        conflicts: Vec::with_capacity(MOST_CONFLICTS),
    };
    match search {
        Search::Marks => find_by_marks(&mut sheet)?,
        Search::Bits => find_by_bits(&mut sheet)?,
    }
    Ok(sheet)
}

// ---- Conflict edges

// The l-blocks by set, ascending: those of set s are at `start[s]..start[s + 1]`.
fn by_set(sheet: &Sheet) -> ([u16; MOST_SETS + 1], [u16; MOST_LBLOCKS]) {
    let mut start = [0; MOST_SETS + 1];
    for b in &sheet.lblocks {
        start[b.set as usize + 1] += 1;
    }
    for s in 0..MOST_SETS {
        start[s + 1] += start[s];
    }
    let mut at = start;
    let mut members = [0; MOST_LBLOCKS];
    for (v, b) in sheet.lblocks.iter().enumerate() {
        members[at[b.set as usize] as usize] = v as u16;
        at[b.set as usize] += 1;
    }
    (start, members)
}

// Marks what can be reached from each source, going from l-block to l-block.
fn find_by_marks(sheet: &mut Sheet) -> Result<(), Fault> {
    let (start, members) = by_set(sheet);
    let nodes = sheet.lblocks.len();
    let end = nodes as u16;
    // The targets of the arrows from l-block v are at `bound[v]..bound[v + 1]`.
    let mut targets: Vec<u16> = Vec::with_capacity(2 * MOST_LBLOCKS);
    let mut bound = [0u16; MOST_LBLOCKS + 1];
    for v in 0..nodes {
        let b = sheet.lblocks[v].block as usize;
        let block = sheet.blocks[b];
        if v + 1 < (block.first + block.lblocks) as usize {
            targets.push(v as u16 + 1);
        } else {
            let mut rest = sheet.next[b];
            while rest != 0 {
                targets.push(sheet.blocks[rest.trailing_zeros() as usize].first);
                rest &= rest - 1;
            }
            if b + 1 == sheet.blocks.len() {
                targets.push(end);
            }
        }
        bound[v + 1] = targets.len() as u16;
    }
    let arrows = |v: u16| &targets[bound[v as usize] as usize..bound[v as usize + 1] as usize];

    let mut mark = [0u16; MOST_LBLOCKS + 1];
    let mut now = 0;
    let mut stack: Vec<u16> = Vec::with_capacity(MOST_LBLOCKS + 1);
    for set in 0..sheet.sets {
        let own = &members[start[set] as usize..start[set + 1] as usize];
        if own.is_empty() {
            continue;
        }
        let row = sheet.used as u16;
        sheet.used += 1;
        for from in std::iter::once(NONE).chain(own.iter().copied()) {
            now += 1;
            let first = if from == NONE { &[0][..] } else { arrows(from) };
            for &v in first {
                mark[v as usize] = now;
                stack.push(v);
            }
            while let Some(u) = stack.pop() {
                if u == end || sheet.lblocks[u as usize].set as usize == set {
                    continue;
                }
                for &v in arrows(u) {
                    if mark[v as usize] != now {
                        mark[v as usize] = now;
                        stack.push(v);
                    }
                }
            }
            for &to in own.iter().filter(|&&v| mark[v as usize] == now) {
                sheet.conflicts.push(Conflict { row, from, to });
            }
            if mark[nodes] == now {
                sheet.conflicts.push(Conflict {
                    row,
                    from,
                    to: NONE,
                });
            }
            if sheet.conflicts.len() > MOST_CONFLICTS {
                return Err((9, set));
            }
        }
    }
    Ok(())
}

// Goes from block to block, and only from the last l-block of the set in a block; all blocks that were reached are bits of one number.
fn find_by_bits(sheet: &mut Sheet) -> Result<(), Fault> {
    let (start, members) = by_set(sheet);
    let last = sheet.blocks.len() - 1;
    let mut first = [NONE; MOST_BLOCKS];
    for set in 0..sheet.sets {
        let own = &members[start[set] as usize..start[set + 1] as usize];
        if own.is_empty() {
            continue;
        }
        let row = sheet.used as u16;
        sheet.used += 1;
        // The blocks with an l-block of the set, and the first such l-block of each.
        let mut holds = 0u128;
        for &v in own.iter().rev() {
            let b = sheet.lblocks[v as usize].block as usize;
            holds |= 1 << b;
            first[b] = v;
        }
        for k in 0..=own.len() {
            let (from, mut seen, mut ends) = if k == 0 {
                (NONE, 1u128, false)
            } else {
                let v = own[k - 1];
                let b = sheet.lblocks[v as usize].block;
                if let Some(&w) = own.get(k) {
                    if sheet.lblocks[w as usize].block == b {
                        sheet.conflicts.push(Conflict {
                            row,
                            from: v,
                            to: w,
                        });
                        continue;
                    }
                }
                (v, sheet.next[b as usize], b as usize == last)
            };
            let mut open = seen & !holds;
            while open != 0 {
                let b = open.trailing_zeros() as usize;
                open &= open - 1;
                ends |= b == last;
                let more = sheet.next[b] & !seen;
                seen |= more;
                open |= more & !holds;
            }
            let mut hit = seen & holds;
            while hit != 0 {
                let to = first[hit.trailing_zeros() as usize];
                sheet.conflicts.push(Conflict { row, from, to });
                hit &= hit - 1;
            }
            if ends {
                sheet.conflicts.push(Conflict {
                    row,
                    from,
                    to: NONE,
                });
            }
        }
        if sheet.conflicts.len() > MOST_CONFLICTS {
            return Err((9, set));
        }
    }
    Ok(())
}

// ---- Certificates

fn high(word: u32, place: usize) -> Result<u32, Fault> {
    match kind(word) {
        HIGH if word & 0x07ff_f000 == 0 => Ok(payload(word)),
        HIGH => Err((11, place)),
        END => Err((10, place)),
        _ => Err((1, place)),
    }
}

fn low(word: u32, place: usize) -> Result<u32, Fault> {
    if kind(word) == LOW {
        Ok(payload(word))
    } else {
        Err((1, place))
    }
}

// Reads the certificate: answers D and W, and fills in the multipliers.
fn read_certificate(words: &[u32], y: &mut [i64]) -> Result<(i64, i64), Fault> {
    let Some((&claim, body)) = words.split_first() else {
        return Err((2, 0));
    };
    if kind(claim) != CLAIM {
        return Err((1, 0));
    }
    let d = payload(claim);
    if !(1..=0xf_ffff).contains(&d) {
        return Err((4, 0));
    }
    let mut pairs = body.chunks_exact(2);
    // What there is to say where the list ends before the pair whose first word has this place.
    let cut = |place: usize| match words.get(place) {
        Some(&word) => high(word, place).err().unwrap_or((2, words.len())),
        None => (2, words.len()),
    };

    let Some(pair) = pairs.next() else {
        let fault = cut(1);
        let minus = words.get(1).is_some_and(|w| w >> 27 & 1 == 1);
        return Err(if fault.0 == 2 && minus {
            (11, 1)
        } else {
            fault
        });
    };
    let h = high(pair[0], 1)?;
    if h >> 27 == 1 {
        return Err((11, 1));
    }
    let w = (h as i64) << 28 | low(pair[1], 2)? as i64;

    let mut place = 3;
    for y in y.iter_mut() {
        let Some(pair) = pairs.next() else {
            return Err(cut(place));
        };
        let h = high(pair[0], place)?;
        let l = low(pair[1], place + 1)?;
        let magnitude = ((h & 0xfff) as i64) << 28 | l as i64;
        let minus = h >> 27 == 1;
        if minus && magnitude == 0 {
            return Err((11, place));
        }
        *y = if minus { -magnitude } else { magnitude };
        place += 2;
    }

    let Some(&end) = words.get(place) else {
        return Err((2, words.len()));
    };
    match kind(end) {
        END => {}
        HIGH => return Err((10, place)),
        _ => return Err((1, place)),
    }
    if payload(end) as usize != place {
        return Err((3, place));
    }
    if words.len() > place + 1 {
        return Err((3, place + 1));
    }
    Ok((d as i64, w))
}

// Judges a certificate: answers its W, or what is wrong.
fn judge(sheet: &Sheet, words: &[u32]) -> Result<u64, Fault> {
    let mut room = [0i64; MOST_ROWS];
    let all = &mut room[..sheet.rows()];
    let (d, w) = read_certificate(words, all)?;

    // The multipliers of each family of rows.
    let (b, v) = (sheet.blocks.len(), sheet.lblocks.len());
    let (ins, rest) = all.split_at(b);
    let (outs, rest) = rest.split_at(b);
    let (loops, rest) = rest.split_at(sheet.loops.len());
    let (facts, rest) = rest.split_at(sheet.facts.len());
    let (arrivals, rest) = rest.split_at(v);
    let (departures, rest) = rest.split_at(v);
    let (sets, misses) = rest.split_at(sheet.used);

    // Signs.
    if let Some(l) = loops.iter().chain(facts).position(|&y| y < 0) {
        return Err((12, 2 * b + l));
    }
    if let Some(m) = misses.iter().position(|&y| y < 0) {
        return Err((12, all.len() - v + m));
    }

    // Columns of blocks.
    let mut total = [0i64; MOST_BLOCKS];
    for (f, &y) in sheet.facts.iter().zip(facts) {
        total[f.i as usize] += y;
        total[f.j as usize] -= f.k as i64 * y;
    }
    for (n, block) in sheet.blocks.iter().enumerate() {
        let own = block.first as usize..(block.first + block.lblocks) as usize;
        let hits: i64 = sheet.lblocks[own.clone()]
            .iter()
            .map(|x| x.hit as i64)
            .sum();
        let arrived: i64 = arrivals[own.clone()].iter().sum();
        let departed: i64 = departures[own].iter().sum();
        if total[n] + ins[n] + outs[n] + arrived + departed < hits * d {
            return Err((13, n));
        }
    }

    // Columns of edges.
    for (n, e) in sheet.edges.iter().enumerate() {
        let mut total = -ins[e.to as usize] - outs[e.from as usize];
        if let Some(l) = sheet.loop_at[e.to as usize] {
            let y = loops[l as usize];
            let l = &sheet.loops[l as usize];
            total += if l.backs >> e.from & 1 == 1 {
                y
            } else {
                -(l.bound as i64) * y
            };
        }
        if total < 0 {
            return Err((13, b + n));
        }
    }

    // Columns of misses.
    let before = b + sheet.edges.len();
    for (n, (x, &y)) in sheet.lblocks.iter().zip(misses).enumerate() {
        if y < x.extra as i64 * d {
            return Err((13, before + n));
        }
    }

    // Columns of conflict edges.
    for (n, c) in sheet.conflicts.iter().enumerate() {
        let (from, to) = (c.from as usize, c.to as usize);
        let total = match (c.from, c.to) {
            (NONE, NONE) => sets[c.row as usize],
            (NONE, _) => sets[c.row as usize] - arrivals[to] - misses[to],
            (_, NONE) => -departures[from],
            _ => {
                let miss = if sheet.lblocks[from].tag == sheet.lblocks[to].tag {
                    0
                } else {
                    misses[to]
                };
                -arrivals[to] - departures[from] - miss
            }
        };
        if total < 0 {
            return Err((13, before + v + n));
        }
    }

    // The claim.
    let right = ins[0] + outs[b - 1] + sets.iter().sum::<i64>();
    if right > w * d + d - 1 {
        return Err((14, 0));
    }
    Ok(w as u64)
}

// ---- A largest sheet and its certificate

fn word(kind: u32, payload: u32) -> u32 {
    assert!(payload < 1 << 28);
    kind << 28 | payload
}

// A sequence of numbers that is the same in every run.
struct Sequence(u64);

impl Sequence {
    fn below(&mut self, n: u32) -> u32 {
        self.0 = self
            .0
            .wrapping_mul(6364136223846793005)
            .wrapping_add(1442695040888963407);
        ((self.0 >> 33) % n as u64) as u32
    }
}

// The header of each of the 32 loops. Its back edges come from itself and from the block after it.
fn header(l: u32) -> u32 {
    2 + 7 * l / 2
}

// A sheet with as many blocks, l-blocks, edges, loops, back edges, facts and sets as a sheet may have. The more l-blocks are in the first
// sets, the more conflict edges there are.
fn make_sheet(crowded: u32) -> Vec<u32> {
    let mut any = Sequence(1);
    let mut words = vec![word(HEAD, MOST_SETS as u32)];
    for v in 0..MOST_LBLOCKS as u32 {
        if v % 4 == 0 {
            words.push(word(BLOCK, 4));
        }
        let spread = any.below(MOST_SETS as u32);
        let crowd = any.below(16);
        let chance = any.below(512);
        // Every set is used: the first l-blocks of every second block go round all sets.
        let set = if v % 8 == 0 {
            v / 8
        } else if chance < crowded {
            crowd
        } else {
            spread
        };
        words.push(word(LBLOCK, set << 20 | any.below(6)));
        words.push(word(COST, (1 + any.below(9)) << 14 | (5 + any.below(40))));
    }

    let last = MOST_BLOCKS as u32 - 1;
    let forward = MOST_EDGES - MOST_BACKS;
    let mut edges: Vec<(u32, u32)> = (0..last).map(|a| (a, a + 1)).collect();
    while edges.len() < forward {
        let a = any.below(last);
        let e = (a, a + 2 + any.below(14));
        if e.1 <= last && !edges.contains(&e) {
            edges.push(e);
        }
    }
    for l in 0..MOST_LOOPS as u32 {
        edges.push((header(l), header(l)));
        edges.push((header(l) + 1, header(l)));
    }
    edges.sort();
    words.extend(edges.iter().map(|e| word(EDGE, e.0 << 14 | e.1)));

    for l in 0..MOST_LOOPS as u32 {
        words.push(word(LOOP, header(l) << 14 | (2 + any.below(30))));
        words.push(word(BACK, header(l)));
        words.push(word(BACK, header(l) + 1));
    }
    for f in 0..MOST_FACTS as u32 {
        words.push(word(
            FACT,
            (4 * f + 3) << 21 | (4 * f) << 14 | (1 + any.below(9)),
        ));
    }
    words.push(word(END, words.len() as u32));
    words
}

// The largest sheet with as many conflict edges as can be had this way.
fn largest_sheet() -> Vec<u32> {
    for crowded in (0..=512).rev() {
        let words = make_sheet(crowded);
        if read_sheet(&words, Search::Bits).is_ok() {
            return words;
        }
    }
    panic!("every sheet is refused");
}

// A certificate that passes if all edges but back edges go to blocks with higher numbers. It takes every fetch for a miss, and finds for
// each block the most that it can cost from there on.
fn make_certificate(sheet: &Sheet) -> Vec<u32> {
    let d = 10_000;
    let n = sheet.blocks.len();
    let facts = vec![7 * d; sheet.facts.len()];

    // What a run of each block has to bring in.
    let mut cost = vec![0i64; n];
    for x in &sheet.lblocks {
        cost[x.block as usize] += (x.hit + x.extra) as i64 * d;
    }
    for (f, y) in sheet.facts.iter().zip(&facts) {
        cost[f.i as usize] -= y;
        cost[f.j as usize] += f.k as i64 * y;
    }

    // From the last block to the first: the cost after a block, with it, and of a turn of the loop that it is the header of.
    let mut after = vec![0i64; n];
    let mut with = vec![0i64; n];
    let mut turn = vec![0i64; sheet.loops.len()];
    for b in (0..n).rev() {
        for e in sheet.edges.iter().filter(|e| e.from as usize == b) {
            let need = match sheet.loop_at[e.to as usize] {
                None => with[e.to as usize],
                Some(l) => {
                    let this = &sheet.loops[l as usize];
                    if this.backs >> b & 1 == 1 {
                        continue;
                    }
                    with[e.to as usize] + this.bound as i64 * turn[l as usize]
                }
            };
            after[b] = after[b].max(need);
        }
        with[b] = cost[b] + after[b];
        if let Some(l) = sheet.loop_at[b] {
            let backs = sheet.loops[l as usize].backs;
            let sources = (0..n).filter(|s| backs >> s & 1 == 1);
            turn[l as usize] = sources
                .map(|s| with[b] - after[s])
                .max()
                .unwrap_or(0)
                .max(0);
        }
    }

    // Each set adds a little to its row and to the arrivals at its l-blocks, and takes it off their departures.
    let mut used = vec![false; sheet.sets];
    for x in &sheet.lblocks {
        used[x.set as usize] = true;
    }
    let little = |set: usize| (1 + set as i64 % 5) * d;
    let miss = |x: &LBlock| x.extra as i64 * d;
    let mut y = with.clone();
    y.extend(after.iter().map(|x| -x));
    y.extend(turn);
    y.extend(facts);
    y.extend(
        sheet
            .lblocks
            .iter()
            .map(|x| little(x.set as usize) - miss(x)),
    );
    y.extend(sheet.lblocks.iter().map(|x| -little(x.set as usize)));
    let sets: Vec<i64> = (0..sheet.sets).filter(|&s| used[s]).map(little).collect();
    y.extend(&sets);
    y.extend(sheet.lblocks.iter().map(miss));

    let claim = (with[0] + sets.iter().sum::<i64>()) / d;
    let mut words = vec![word(CLAIM, d as u32)];
    for x in std::iter::once(claim).chain(y) {
        let magnitude = x.unsigned_abs();
        words.push(word(
            HIGH,
            ((x < 0) as u32) << 27 | u32::try_from(magnitude >> 28).unwrap(),
        ));
        words.push(word(LOW, (magnitude & 0x0fff_ffff) as u32));
    }
    words.push(word(END, words.len() as u32));
    words
}

// ---- The program

// The words of standard input: those of the sheet, and those after it.
fn read_input() -> std::io::Result<(Vec<u32>, Vec<u32>)> {
    let mut bytes = Vec::new();
    std::io::stdin().read_to_end(&mut bytes)?;
    let mut sheet: Vec<u32> = bytes
        .chunks_exact(4)
        .map(|b| u32::from_be_bytes([b[0], b[1], b[2], b[3]]))
        .collect();
    let end = sheet
        .iter()
        .position(|&w| kind(w) == END)
        .map_or(sheet.len(), |i| i + 1);
    let rest = sheet.split_off(end);
    Ok((sheet, rest))
}

fn print_verdict(verdict: &Result<u64, Fault>) {
    match verdict {
        Ok(w) => println!("accepted {w}"),
        Err((number, place)) => println!("claim refused {number} at {place}"),
    }
}

// Prints the best and the median time of a call.
fn print_times<T>(name: &str, rounds: usize, mut call: impl FnMut() -> T) {
    let mut times: Vec<u128> = (0..rounds.max(1))
        .map(|_| {
            let start = Instant::now();
            let answer = black_box(call());
            let span = start.elapsed().as_nanos();
            drop(answer);
            span
        })
        .collect();
    times.sort();
    println!("{name} best {} median {}", times[0], times[times.len() / 2]);
}

fn main() -> ExitCode {
    let args: Vec<String> = std::env::args().skip(1).collect();
    let args: Vec<&str> = args.iter().map(String::as_str).collect();
    let rounds = match args[..] {
        ["make"] => {
            let mut words = largest_sheet();
            let sheet = read_sheet(&words, Search::Bits).expect("the sheet is refused");
            let certificate = make_certificate(&sheet);
            judge(&sheet, &certificate).expect("the certificate is refused");
            words.extend(certificate);
            let bytes: Vec<u8> = words.iter().flat_map(|w| w.to_be_bytes()).collect();
            std::io::stdout()
                .write_all(&bytes)
                .expect("the words cannot be written");
            return ExitCode::SUCCESS;
        }
        ["check"] => None,
        ["time", n] => Some(
            n.parse::<usize>()
                .expect("the number of rounds is not a number"),
        ),
        _ => {
            eprintln!("plain make | plain check | plain time N");
            return ExitCode::FAILURE;
        }
    };

    let (words, certificate) = read_input().expect("the input cannot be read");
    let sheet = match read_sheet(&words, Search::Bits) {
        Ok(sheet) => sheet,
        Err((number, place)) => {
            println!("sheet refused {number} at {place}");
            return ExitCode::SUCCESS;
        }
    };
    match rounds {
        None => {
            let again = read_sheet(&words, Search::Marks).expect("one search refuses the sheet");
            assert_eq!(sheet.conflicts, again.conflicts, "the two searches differ");
            println!(
                "blocks {} edges {} lblocks {} conflicts {} rows {} columns {} nonzeros {}",
                sheet.blocks.len(),
                sheet.edges.len(),
                sheet.lblocks.len(),
                sheet.conflicts.len(),
                sheet.rows(),
                sheet.columns(),
                sheet.nonzeros()
            );
        }
        Some(rounds) => {
            print_times("sheet", rounds, || {
                read_sheet(black_box(&words), Search::Marks)
            });
            print_times("bits", rounds, || {
                read_sheet(black_box(&words), Search::Bits)
            });
            print_times("judge", rounds, || {
                judge(black_box(&sheet), black_box(&certificate))
            });
        }
    }
    print_verdict(&judge(&sheet, &certificate));
    ExitCode::SUCCESS
}

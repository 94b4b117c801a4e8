//! The rules once more, by trying everything: all walks, all locations, all lists of different pairs, all short closed chains of steps.
//! Thousands of tiny listings are judged both ways.

use inputs::{cut_off, loose_listing, tiny_listing, version, Random};
use straightforward::{judge, judge_patch, propose, read, write, Answer, Refusal, CHAIN_BUFFER};

type Pair = (usize, usize);

/// A walk: its first node, what is inside, its last node.
type Walk = (usize, Vec<usize>, usize);

/// The kinds that are accesses.
const ACCESSES: [u8; 6] = [1, 2, 3, 5, 6, 9];

/// Which pairs need order, by question: a row for each first kind and a letter for each second kind, both in the order of ACCESSES.
/// `n` need, `-` none, `u` only if some walk between them has an RMW inside.
const NEED: [[&str; ACCESSES.len()]; 6] = [
    ["------", "n--n-n", "------", "------", "n--n-n", "------"],
    ["nnnnnn", "nnnnnn", "nnnnnn", "nnnnnn", "nnnnnn", "nnnnnn"],
    ["nnnnnn", "unnunu", "nnnnnn", "nnnnnn", "unnunu", "nnnnnn"],
    ["nnnnnn", "------", "nnnnnn", "nnnnnn", "------", "nnnnnn"],
    ["nnnn-n", "nnnn-n", "nnnn-n", "------", "nnn--n", "------"],
    ["nnnn-n", "unnu-u", "nnnn-n", "------", "unn--u", "------"],
];

/// The rules, or others that one may mistake for them.
#[derive(Clone, Copy)]
struct Rule {
    /// says of two reads, if given, that they always meet at a location, or never do
    two_reads: Option<bool>,
    /// the fewest pairs of a chain
    fewest: usize,
}

/// Reads meet where somebody writes, and a pair whose second node may meet its first closes a chain alone.
const RIGHT: Rule = Rule { two_reads: None, fewest: 1 };

struct Tiny<'a> {
    records: Vec<&'a [u8]>,
    walks: Vec<Walk>,
    question: u64,
    rule: Rule,
    /// who may meet whom
    meetings: Vec<Vec<bool>>,
}

impl<'a> Tiny<'a> {
    /// Every walk of at most `links` links is tried.
    fn new(question: u64, listing: &'a [u8], links: usize) -> Tiny<'a> {
        let records: Vec<&[u8]> = listing[7..].chunks(6).collect();
        let mut walks: Vec<Walk> = Vec::new();
        let mut last: Vec<Vec<usize>> = (0..records.len()).map(|node| vec![node]).collect();
        for _ in 0..links {
            let mut longer = Vec::new();
            for visited in &last {
                for &next in records[visited[visited.len() - 1]][4..6].iter().filter(|&&next| next != 255) {
                    walks.push((visited[0], visited[1..].to_vec(), next as usize));
                    longer.push([&visited[..], &[next as usize]].concat());
                }
            }
            last = longer;
        }
        let mut tiny = Tiny { records, walks, question, rule: RIGHT, meetings: Vec::new() };
        tiny.meetings = tiny.who_meets();
        tiny
    }

    fn routine(&self, node: usize) -> u8 {
        self.records[node][0]
    }

    fn kind(&self, node: usize) -> u8 {
        self.records[node][1]
    }

    fn location(&self, node: usize) -> u16 {
        self.records[node][2] as u16 + 256 * self.records[node][3] as u16
    }

    fn accesses(&self, pair: Pair) -> bool {
        [pair.0, pair.1].iter().all(|&node| ACCESSES.contains(&self.kind(node)))
    }

    fn insides(&self, pair: Pair) -> impl Iterator<Item = &Vec<usize>> {
        self.walks.iter().filter(move |walk| (walk.0, walk.2) == pair).map(|walk| &walk.1)
    }

    /// 18's place, if there is one: the lowest node that is not the lowest of its routine, and to which no walk leads from that one.
    fn unreached(&self) -> Option<usize> {
        (0..self.records.len()).find(|&node| {
            let lowest = (0..=node).find(|&other| self.routine(other) == self.routine(node));
            lowest != Some(node) && !self.walks.iter().any(|walk| (Some(walk.0), walk.2) == (lowest, node))
        })
    }

    /// The pairs, by first node, then second node.
    fn pairs(&self) -> Vec<Pair> {
        let nodes = self.records.len();
        let all = (0..nodes).flat_map(|first| (0..nodes).map(move |second| (first, second)));
        all.filter(|&pair| self.accesses(pair) && self.insides(pair).next().is_some()).collect()
    }

    /// Who may meet whom, by trying every location: both may be there, and where both are reads, somebody who writes may be there
    /// too.
    fn who_meets(&self) -> Vec<Vec<bool>> {
        let nodes = || 0..self.records.len();
        let may_be = |node: usize, there: u16| [0, there].contains(&self.location(node));
        let is_written = |there: u16| nodes().any(|node| [2, 3, 6].contains(&self.kind(node)) && may_be(node, there));
        let meet = |one: usize, other: usize| {
            let reads = [one, other].iter().all(|&node| [1, 5, 9].contains(&self.kind(node)));
            let may_both_be = |there: &u16| may_be(one, *there) && may_be(other, *there);
            let mut shared = nodes().map(|node| self.location(node)).filter(may_both_be);
            shared.any(|there| !reads || self.rule.two_reads.unwrap_or_else(|| is_written(there)))
        };
        nodes().map(|one| nodes().map(|other| meet(one, other)).collect()).collect()
    }

    fn may_meet(&self, one: usize, other: usize) -> bool {
        self.meetings[one][other]
    }

    /// What `judge` says by the rules, if reads always met at a location, if they never did, and if no pair alone were a chain.
    fn by_each_rule<T>(mut self, judge: impl Fn(&Self) -> T) -> [T; 4] {
        let always = Rule { two_reads: Some(true), ..RIGHT };
        let never = Rule { two_reads: Some(false), ..RIGHT };
        let not_alone = Rule { fewest: 2, ..RIGHT };
        [RIGHT, always, never, not_alone].map(|rule| {
            self.rule = rule;
            self.meetings = self.who_meets();
            judge(&self)
        })
    }

    fn surely_meet(&self, (one, other): Pair) -> bool {
        let (one, other) = (self.location(one), self.location(other));
        one == other && one > 0 && one < 32768
    }

    fn needs_order(&self, pair: Pair) -> bool {
        let [row, column] = [pair.0, pair.1].map(|node| ACCESSES.iter().position(|&kind| kind == self.kind(node)).unwrap());
        match NEED[self.question as usize - 1][row].as_bytes()[column] {
            b'u' => self.insides(pair).any(|inside| inside.iter().any(|&node| self.kind(node) == 3)),
            need => need == b'n',
        }
    }

    /// Some node inside a walk between the ends of the pair is a barrier for them.
    fn has_barrier(&self, pair: Pair, inside: &[usize]) -> bool {
        let (first, second) = (self.kind(pair.0), self.kind(pair.1));
        inside.iter().any(|&node| match (self.kind(node), self.question) {
            (4, _) | (3, 1) => true,
            (7, 5 | 6) => first == 1,
            (8, 5 | 6) => [(2, 2), (2, 6), (6, 2), (6, 6)].contains(&(first, second)),
            _ => false,
        })
    }

    /// All the chains that go on from `list`, with at most `most` pairs, given to `see`.
    fn chains(&self, pairs: &[Pair], list: &mut Vec<Pair>, most: usize, see: &mut impl FnMut(&[Pair])) {
        let last = list[list.len() - 1];
        if list.len() >= self.rule.fewest && self.may_meet(last.1, list[0].0) {
            see(list);
        }
        if list.len() == most {
            return;
        }
        for &pair in pairs {
            if self.may_meet(last.1, pair.0) && !list.contains(&pair) {
                list.push(pair);
                self.chains(pairs, list, most, see);
                list.pop();
            }
        }
    }

    /// The chain with the fewest pairs, and among those the smallest.
    fn shown_chain(&self, pairs: &[Pair], start: Pair) -> Option<Vec<Pair>> {
        let mut best: Option<Vec<Pair>> = None;
        self.chains(pairs, &mut vec![start], self.records.len() + 1, &mut |chain| {
            if best.as_ref().is_none_or(|best| (chain.len(), chain) < (best.len(), &best[..])) {
                best = Some(chain.to_vec());
            }
        });
        best
    }

    /// The failing pairs in order, each with its chain.
    fn failing(&self) -> Vec<Vec<Pair>> {
        let pairs = self.pairs();
        let fails = |pair: &Pair| {
            self.needs_order(*pair)
                && !self.surely_meet(*pair)
                && self.insides(*pair).any(|inside| !self.has_barrier(*pair, inside))
        };
        pairs.iter().filter(|pair| fails(pair)).filter_map(|&pair| self.shown_chain(&pairs, pair)).collect()
    }

    /// The third demand: every closed chain of at most `most` steps has each step in order or free of need.
    ///
    /// A closed chain may start at any of its steps, so only its first step is looked at.
    fn ordered(&self, most: usize) -> bool {
        let pairs = self.pairs();
        self.walks.iter().filter(|walk| self.accesses((walk.0, walk.2))).all(|(first, inside, second)| {
            let pair = (*first, *second);
            let in_order = self.surely_meet(pair) || self.has_barrier(pair, inside);
            in_order || !self.needs_order(pair) || !self.on_ring(&pairs, &mut vec![pair], most)
        })
    }

    /// Some closed chain goes on from these steps: "a list of at least two, repeats allowed".
    fn on_ring(&self, pairs: &[Pair], steps: &mut Vec<Pair>, most: usize) -> bool {
        let last = steps[steps.len() - 1];
        let are_enough = self.rule.fewest == 1 || steps.iter().any(|&step| step != steps[0]);
        if steps.len() >= 2 && are_enough && self.may_meet(last.1, steps[0].0) {
            return true;
        }
        steps.len() < most
            && pairs.iter().any(|&next| {
                self.may_meet(last.1, next.0) && {
                    steps.push(next);
                    let closes = self.on_ring(pairs, steps, most);
                    steps.pop();
                    closes
                }
            })
    }
}

/// How often a verdict turned on which reads meet, and on chains of one pair.
#[derive(Default, Debug)]
struct Turned {
    /// it would be OPEN if reads always met at a location
    unwritten: usize,
    /// it would be ROBUST if they never did
    written: usize,
    /// it would be ROBUST if no pair alone were a chain
    alone: usize,
}

impl Turned {
    fn count(&mut self, [robust, always, never, not_alone]: [bool; 4]) {
        self.unwritten += (robust && !always) as usize;
        self.written += (!robust && never) as usize;
        self.alone += (!robust && not_alone) as usize;
    }

    fn must_be_over(&self, least: usize) {
        assert!(
            [self.unwritten, self.written, self.alone].iter().all(|&count| count > least),
            "too few verdicts turn on a rule to mean anything: {self:?}"
        );
    }
}

/// How often a shown chain had one pair, two pairs, and more.
#[derive(Default, Debug)]
struct Shown([usize; 3]);

impl Shown {
    fn count(&mut self, chain: &[Pair]) {
        self.0[chain.len().min(3) - 1] += 1;
    }

    fn must_be_over(&self, least: usize) {
        assert!(self.0.iter().all(|&count| count > least), "too few chains of a length to mean anything: {self:?}");
    }
}

/// How often each verdict was met, by version and question: OPEN and ROBUST.
#[derive(Default, Debug)]
struct Met([[[usize; 2]; 6]; 2]);

impl Met {
    fn count(&mut self, question: u64, listing: &[u8], robust: bool) {
        self.0[version(listing) as usize - 1][question as usize - 1][robust as usize] += 1;
    }

    fn must_be_over(&self, least: usize) {
        assert!(self.0.iter().flatten().flatten().all(|&count| count > least), "too few of a verdict to mean anything: {self:?}");
    }
}

/// Links that visit every node twice: enough for a walk past an RMW.
fn links(listing: &[u8]) -> usize {
    2 * listing[6] as usize
}

fn judged(question: u64, listing: &[u8], map: &[u8]) -> Option<Vec<Pair>> {
    let mut chain = [0; CHAIN_BUFFER];
    match judge_patch(question, listing, map, &mut chain).unwrap() {
        Answer::Robust => None,
        Answer::Open { first, second, count } => {
            assert_eq!((chain[0], chain[1]), (first as u8, second as u8));
            Some(chain[..2 * count].chunks(2).map(|pair| (pair[0] as usize, pair[1] as usize)).collect())
        }
    }
}

#[test]
fn unreached_nodes_by_trying_every_walk() {
    let mut random = Random::seeded(7);
    // how often nothing was refused, and how often each of the first nodes
    let mut met = [0; 7];
    for _ in 0..30000 {
        let listing = match random.below(3) {
            0 => tiny_listing(&mut random),
            1 => {
                let good = tiny_listing(&mut random);
                cut_off(&mut random, &good)
            }
            _ => {
                let nodes = random.from_to(1, 7);
                loose_listing(&mut random, nodes)
            }
        };
        // with as many links as nodes a walk leads wherever any does
        let place = Tiny::new(1, &listing, listing[6] as usize).unreached();
        let refused = place.map(|place| Refusal { number: 18, place: place as u64 });
        let (mut lent, map) = ([0; 775], vec![0; listing[6] as usize]);
        assert_eq!(read(&listing).err(), refused, "{listing:?}");
        assert_eq!(judge(1, &listing, &mut lent).err(), refused, "{listing:?}");
        assert_eq!(judge_patch(1, &listing, &map, &mut lent).err(), refused, "{listing:?}");
        assert_eq!(propose(1, &listing, &mut lent).err(), refused, "{listing:?}");
        assert_eq!(write(&listing, &map, &mut lent).err(), refused, "{listing:?}");
        met[place.unwrap_or(0).min(6)] += 1;
    }
    assert!(met.iter().all(|&count| count > 100), "too few of an answer to mean anything: {met:?}");
}

#[test]
fn verdict_chain_and_proposal_by_trying_everything() {
    let mut random = Random::seeded(1);
    let (mut met, mut shown, mut turned) = (Met::default(), Shown::default(), Turned::default());
    for _ in 0..20000 {
        let listing = tiny_listing(&mut random);
        let nodes = listing[6] as usize;
        for question in 1..=6 {
            let tried = Tiny::new(question, &listing, links(&listing)).by_each_rule(Tiny::failing);
            turned.count(tried.each_ref().map(Vec::is_empty));
            let [failing, ..] = tried;
            assert_eq!(judged(question, &listing, &vec![0; nodes]), failing.first().cloned(), "{question} {listing:?}");
            let expected: Vec<u8> = (0..nodes).map(|node| failing.iter().any(|chain| chain[0].0 == node) as u8).collect();
            let mut map = vec![7; nodes];
            assert_eq!(propose(question, &listing, &mut map).unwrap(), expected.iter().filter(|&&byte| byte == 1).count());
            assert_eq!(map, expected, "{question} {listing:?}");
            met.count(question, &listing, failing.is_empty());
            if let Some(chain) = failing.first() {
                shown.count(chain);
            }
        }
    }
    met.must_be_over(400);
    shown.must_be_over(4000);
    turned.must_be_over(400);
}

#[test]
fn demand_3_by_trying_short_closed_chains() {
    let mut random = Random::seeded(3);
    let (mut met, mut turned) = (Met::default(), Turned::default());
    for _ in 0..4000 {
        let listing = tiny_listing(&mut random);
        let nodes = listing[6] as usize;
        for question in 1..=6 {
            let mut chain = [0; CHAIN_BUFFER];
            let robust = judge(question, &listing, &mut chain).unwrap() == Answer::Robust;
            // four accesses or four pieces: no chain to show has more than five pairs
            let ordered = Tiny::new(question, &listing, links(&listing)).by_each_rule(|tiny| tiny.ordered(5));
            assert_eq!(ordered[0], robust, "{question} {listing:?}");
            met.count(question, &listing, robust);
            turned.count(ordered);
            let mut map = vec![0; nodes];
            propose(question, &listing, &mut map).unwrap();
            assert_eq!(judged(question, &listing, &map), None, "the proposal is not accepted: {question} {listing:?}");
        }
    }
    met.must_be_over(100);
    turned.must_be_over(60);
}

#[test]
fn patches_by_trying_everything_on_the_written_listing() {
    let mut random = Random::seeded(5);
    let (mut met, mut turned) = (Met::default(), Turned::default());
    for _ in 0..4000 {
        let listing = tiny_listing(&mut random);
        if listing[6] > 4 {
            continue; // with the fences there would be too many walks to try
        }
        let map: Vec<u8> = (0..listing[6]).map(|_| random.once_in(3) as u8).collect();
        let mut written = [0; 7 + 6 * 8];
        let length = write(&listing, &map, &mut written).unwrap();
        for question in 1..=6 {
            let tiny = Tiny::new(question, &written[..length], links(&written));
            let pairs = tiny.pairs();
            let tried = tiny.by_each_rule(|tiny| tiny.failing().into_iter().next());
            turned.count(tried.each_ref().map(Option::is_none));
            let [first, ..] = tried;
            met.count(question, &listing, first.is_none());
            assert_eq!(judged(question, &listing, &map), first, "{question} {map:?} {listing:?}");
            assert!(pairs.iter().all(|pair| pair.0.max(pair.1) < map.len()), "a fence is no access");
        }
    }
    met.must_be_over(25);
    turned.must_be_over(60);
}

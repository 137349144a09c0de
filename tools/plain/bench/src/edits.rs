//! `edit COUNT ROUNDS`: changes of a tree in memory, whose nodes stand in an ordered map, one by one and many at once.

use crate::batch::{self, Change};
use crate::build::{build, layer};
use crate::cid::{self, Cid};
use crate::clock::timed;
use crate::made::Plan;
use crate::paths::{self, Source, Tree};
use std::collections::BTreeMap;

pub type Nodes = BTreeMap<Cid, Box<[u8]>>;

impl Source for Nodes {
    fn node(&self, cid: &Cid) -> Result<&[u8], &'static str> {
        self.get(cid).map(|block| &**block).ok_or("BlockMissing")
    }
}

/// The tree of the pairs at these places, which are in the order of the keys.
pub fn tree_of(plan: &Plan, places: &[usize], mut take: impl FnMut(&Cid, &[u8])) -> Tree {
    let pair = |at: usize| (&plan.pairs[places[at]].0[..], &plan.pairs[places[at]].1);
    let root = build(places.len(), pair, |cid, block| {
        take(cid, block);
        true
    });
    let top = places.iter().map(|place| layer(&plan.pairs[*place].0)).max().unwrap_or(0);
    Tree { root: root.expect("a root"), top }
}

/// How many edits were made, and what these read and changed in all.
#[derive(Default)]
struct Done {
    edits: usize,
    reads: usize,
    added: usize,
    dropped: usize,
}

/// A tree by its root and the table of its nodes.
struct Desk {
    tree: Tree,
    nodes: Nodes,
}

impl Desk {
    fn of(plan: &Plan) -> Desk {
        let mut nodes = Nodes::new();
        let tree = tree_of(plan, &plan.in_order(), |cid, block| {
            nodes.insert(*cid, block.into());
        });
        Desk { tree, nodes }
    }

    fn take_over(&mut self, tree: Tree, add: Vec<(Cid, Vec<u8>)>, drop: &[Cid]) {
        for (cid, block) in add {
            self.nodes.insert(cid, block.into_boxed_slice());
        }
        for cid in drop {
            self.nodes.remove(cid);
        }
        self.tree = tree;
    }

    /// Puts or deletes the pairs at these places, one by one.
    #[inline(never)]
    fn one_by_one(&mut self, plan: &Plan, places: &[usize], is_put: bool) -> Done {
        let mut done = Done::default();
        for place in places {
            let (key, value) = &plan.pairs[*place];
            let (tree, edit) = match is_put {
                true => paths::put(&self.nodes, self.tree, key, value).expect("a tree"),
                false => paths::delete(&self.nodes, self.tree, key).expect("a tree").expect("the key"),
            };
            assert_eq!(edit.previous.is_none(), is_put);
            done.edits += 1;
            done.reads += edit.read.len();
            done.added += edit.add.len();
            done.dropped += edit.drop.len();
            self.take_over(tree, edit.add, &edit.drop);
        }
        done
    }

    /// Puts the pairs at these places, so many at once.
    #[inline(never)]
    fn at_once(&mut self, plan: &Plan, places: &[usize], size: usize) -> Done {
        let mut done = Done::default();
        for some in places.chunks(size) {
            let mut places = some.to_vec();
            places.sort_unstable();
            let pairs = places.iter().map(|place| &plan.pairs[*place]);
            let changes: Vec<Change> = pairs.map(|(key, value)| Change { key, value: Some(*value) }).collect();
            let (tree, edit) = batch::apply(&self.nodes, self.tree, &changes).expect("a tree");
            assert!(edit.previous.iter().all(Option::is_none));
            done.edits += changes.len();
            done.reads += edit.reads;
            done.added += edit.add.len();
            done.dropped += edit.drop.len();
            self.take_over(tree, edit.add, &edit.drop);
        }
        done
    }
}

/// What one kind of edits did in a round, and the nanoseconds of the quickest round.
struct Turn {
    name: &'static str,
    size: usize,
    done: Done,
    least: u64,
}

impl Turn {
    fn of(name: &'static str, size: usize) -> Turn {
        Turn { name, size, done: Done::default(), least: u64::MAX }
    }

    fn time(&mut self, job: impl FnOnce() -> Done) {
        let (done, nanos) = timed(job);
        self.done = done;
        self.least = self.least.min(nanos);
    }

    fn print(&self) {
        let Done { edits, reads, added, dropped } = self.done;
        let each = self.least / (edits as u64).max(1);
        println!(
            "{}, {} at once: {edits} edits, {reads} blocks read, {added} added, {dropped} dropped, {each} ns an edit at the least",
            self.name, self.size
        );
    }
}

pub fn run(count: usize, rounds: usize) {
    let plan = Plan::of(count, 10_000);
    let mut turns = [Turn::of("put", 1), Turn::of("delete of what was put", 1), Turn::of("delete of a first key", 1)];
    let mut root = cid::of(b"");
    for _ in 0..rounds {
        let mut desk = Desk::of(&plan);
        let before = desk.tree;
        let [puts, undone, deletes] = &mut turns;
        puts.time(|| desk.one_by_one(&plan, &plan.new, true));
        undone.time(|| desk.one_by_one(&plan, &plan.new, false));
        assert_eq!(desk.tree, before);
        let first = &plan.first[..plan.new.len().min(plan.first.len())];
        deletes.time(|| desk.one_by_one(&plan, first, false));
        root = desk.tree.root;
    }
    turns.iter().for_each(Turn::print);
    println!("the last root is {}", cid::text(&root));
    for size in [1, 10, 100, 1_000, 10_000] {
        let mut turn = Turn::of("put", size);
        for _ in 0..rounds {
            let mut desk = Desk::of(&plan);
            turn.time(|| desk.at_once(&plan, &plan.new, size));
        }
        turn.print();
    }
}

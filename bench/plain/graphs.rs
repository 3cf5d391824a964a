//! A graph of commands as a list, the braid of its heads, and ancestors. Ids are any distinct 32 bytes: none is a digest here.

use crate::messages::{Command, Content, Id};
use std::cmp::Reverse;
use std::collections::{BinaryHeap, HashMap};
use std::hint::black_box;

impl Command {
    fn parents(&self) -> impl Iterator<Item = &Id> {
        let (one, other) = match self {
            Command::Init { .. } => (None, None),
            Command::Basic { parent, .. } | Command::Finalize { parent, .. } => {
                (Some(parent), None)
            }
            Command::Merge { left, right } => (Some(left), Some(right)),
        };
        one.into_iter().chain(other)
    }

    fn priority(&self) -> u32 {
        match self {
            Command::Basic { priority, .. } => *priority,
            _ => 0,
        }
    }
}

/// Commands with their ids, each behind its parents.
#[derive(Default)]
struct Graph {
    commands: Vec<(Id, Command)>,
    places: HashMap<Id, usize>,
}

impl Graph {
    fn append(&mut self, id: Id, command: Command) {
        self.places.insert(id, self.commands.len());
        self.commands.push((id, command));
    }

    fn parents(&self, place: usize) -> impl Iterator<Item = usize> {
        self.commands[place].1.parents().map(|id| self.places[id])
    }

    fn heads(&self) -> Vec<usize> {
        let mut is_head = vec![true; self.commands.len()];
        for place in 0..self.commands.len() {
            for parent in self.parents(place) {
                is_head[parent] = false;
            }
        }
        (0..is_head.len()).filter(|place| is_head[*place]).collect()
    }

    fn is_ancestor(&self, older: usize, newer: usize) -> bool {
        let mut is_seen = vec![false; self.commands.len()];
        let mut left = vec![newer];
        while let Some(place) = left.pop() {
            for parent in self.parents(place) {
                if parent == older {
                    return true;
                }
                if parent > older && !is_seen[parent] {
                    is_seen[parent] = true;
                    left.push(parent);
                }
            }
        }
        false
    }

    /// The places of the tips and of all their ancestors.
    fn closure(&self, tips: &[usize]) -> Vec<usize> {
        let mut is_seen = vec![false; self.commands.len()];
        let mut places = Vec::new();
        let mut left = tips.to_vec();
        while let Some(place) = left.pop() {
            if !is_seen[place] {
                is_seen[place] = true;
                places.push(place);
                left.extend(self.parents(place));
            }
        }
        places
    }

    /// What is taken first is the greatest: a merge, and then the lowest command.
    fn turn(&self, place: usize) -> (bool, Reverse<bool>, Reverse<u32>, Id, usize) {
        let (id, command) = &self.commands[place];
        let is_merge = matches!(command, Command::Merge { .. });
        let is_finalize = matches!(command, Command::Finalize { .. });
        (
            is_merge,
            Reverse(is_finalize),
            Reverse(command.priority()),
            *id,
            place,
        )
    }

    /// The places under the tips, but for the merges, in their order.
    fn braid(&self, tips: &[usize]) -> Vec<usize> {
        let closure = self.closure(tips);
        let mut children = vec![0; self.commands.len()];
        for place in &closure {
            for parent in self.parents(*place) {
                children[parent] += 1;
            }
        }
        let is_free = |place: &&usize| children[**place] == 0;
        let mut free: BinaryHeap<_> = closure
            .iter()
            .filter(is_free)
            .map(|place| self.turn(*place))
            .collect();
        let mut placed = Vec::new();
        while let Some((is_merge, .., place)) = free.pop() {
            if !is_merge {
                placed.push(place);
            }
            for parent in self.parents(place) {
                children[parent] -= 1;
                if children[parent] == 0 {
                    free.push(self.turn(parent));
                }
            }
        }
        placed.reverse();
        placed
    }

    /// The id of the next command: bytes that no other has.
    fn next_id(&self) -> Id {
        let mixed = (self.commands.len() as u64 + 1).wrapping_mul(0x9e37_79b9_7f4a_7c15);
        let mut id = [0; 32];
        id[..8].copy_from_slice(&mixed.to_be_bytes());
        id
    }

    fn append_init(&mut self) {
        let init = Command::Init {
            digest: [1; 32],
            author: [2; 32],
            content: content(),
        };
        self.append(self.next_id(), init);
    }

    fn append_basic(&mut self, priority: u32, parent: usize) {
        let parent = self.commands[parent].0;
        let basic = Command::Basic {
            priority,
            parent,
            author: [2; 32],
            content: content(),
        };
        self.append(self.next_id(), basic);
    }

    fn append_finalize(&mut self, parent: usize) {
        let parent = self.commands[parent].0;
        let finalize = Command::Finalize {
            parent,
            author: [2; 32],
            content: content(),
        };
        self.append(self.next_id(), finalize);
    }

    fn append_merge(&mut self, one: usize, other: usize) {
        let (one, other) = (self.commands[one].0, self.commands[other].0);
        self.append(
            self.next_id(),
            Command::Merge {
                left: one.min(other),
                right: one.max(other),
            },
        );
    }
}

fn content() -> Content {
    Content {
        name: "c".to_string(),
        payload: vec![0],
        tag: Vec::new(),
    }
}

/// A number below the bound, drawn as the proved program draws it.
fn draw(state: &mut u64, bound: u64) -> u64 {
    *state = state
        .wrapping_mul(6_364_136_223_846_793_005)
        .wrapping_add(1_442_695_040_888_963_407);
    (*state >> 33) % bound
}

/// So many commands by eight writers, who merge and finalize now and then.
fn by_writers(graph: &mut Graph, size: usize) {
    let (mut state, mut heads) = (1, [0; 8]);
    for place in 1..size {
        let writer = draw(&mut state, 8) as usize;
        let other = heads[draw(&mut state, 8) as usize];
        let own = heads[writer];
        match draw(&mut state, 8) {
            0 if own > 0 && own != other => graph.append_merge(own, other),
            1 => graph.append_finalize(own),
            _ => graph.append_basic(draw(&mut state, 4) as u32, own),
        }
        heads[writer] = place;
    }
}

/// Two strands of so many commands side by side, a chain of so many, so many diamonds that are each ended by a merge, or so many
/// commands by eight writers.
fn graph(shape: &str, size: usize) -> Graph {
    let mut graph = Graph::default();
    graph.append_init();
    match shape {
        "strands" => {
            for turn in 0..size {
                graph.append_basic(1, (2 * turn).saturating_sub(1));
                graph.append_basic(2, 2 * turn);
            }
        }
        "chain" => (1..size).for_each(|place| graph.append_basic(1, place - 1)),
        "diamonds" => {
            for turn in 0..size {
                graph.append_basic(1, 3 * turn);
                graph.append_basic(2, 3 * turn);
                graph.append_merge(3 * turn + 1, 3 * turn + 2);
            }
        }
        "writers" => by_writers(&mut graph, size),
        _ => panic!("another shape"),
    }
    graph
}

/// Asks a graph so many times for the braid of its heads, or whether its first command is an ancestor of its last.
pub fn ask_graph(ask: &str, shape: &str, size: usize, rounds: u32) {
    let graph = graph(shape, size);
    let mut found = 0;
    for _ in 0..rounds {
        let graph = black_box(&graph);
        found += match ask {
            "braid" => black_box(graph.braid(&graph.heads())).len(),
            _ => usize::from(black_box(graph.is_ancestor(0, graph.commands.len() - 1))),
        };
    }
    println!("{ask} {shape} {size}: {rounds} rounds, {found} found");
}

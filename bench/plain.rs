// The engine's loop in plain Rust, timed against the proved one.
use std::hint::black_box;
use std::time::Instant;

const MOST: usize = 128;

trait Graph {
    fn nodes(&self) -> usize;
    fn gap(&self, from: usize, to: usize) -> Option<i8>;
}

trait Label: Copy {
    fn join(self, other: Self) -> Self;
    fn carry(self, gap: i8) -> Self;
    fn alike(self, other: Self) -> bool;
}

#[derive(Clone, Copy)]
struct Reach {
    yes: bool,
}

impl Label for Reach {
    fn join(self, other: Reach) -> Reach {
        Reach { yes: self.yes || other.yes }
    }
    fn carry(self, _gap: i8) -> Reach {
        self
    }
    fn alike(self, other: Reach) -> bool {
        self.yes == other.yes
    }
}

#[derive(Clone, Copy, PartialEq)]
struct Place {
    at: Option<i16>,
}

impl Label for Place {
    fn join(self, other: Place) -> Place {
        match (self.at, other.at) {
            (None, _) => other,
            (_, None) => self,
            (Some(a), Some(b)) => Place { at: Some(a.max(b)) },
        }
    }
    fn carry(self, gap: i8) -> Place {
        let Some(a) = self.at else {
            return self;
        };
        let sum = i32::from(a) + i32::from(gap);
        Place { at: Some(sum.clamp(-30_000, 30_000) as i16) }
    }
    fn alike(self, other: Place) -> bool {
        self == other
    }
}

struct ArcTable {
    nodes: usize,
    arcs: [bool; MOST * MOST],
}

impl Graph for ArcTable {
    fn nodes(&self) -> usize {
        self.nodes
    }
    fn gap(&self, from: usize, to: usize) -> Option<i8> {
        if from < self.nodes && to < self.nodes && self.arcs[from * MOST + to] { Some(1) } else { None }
    }
}

struct FlowLayer<'a, G> {
    below: &'a G,
    cells: &'a [u8],
}

impl<G: Graph> FlowLayer<'_, G> {
    fn cell(&self, from: usize, to: usize) -> u8 {
        let nodes = self.below.nodes();
        if from >= nodes || to >= nodes {
            return 0;
        }
        *self.cells.get(from * nodes + to).unwrap_or(&0)
    }
}

impl<G: Graph> Graph for FlowLayer<'_, G> {
    fn nodes(&self) -> usize {
        self.below.nodes()
    }
    fn gap(&self, from: usize, to: usize) -> Option<i8> {
        let own = self.below.gap(from, to);
        if own.is_some() || self.cell(to, from) == 0 {
            return own;
        }
        self.below.gap(to, from).map(|g| -g)
    }
}

fn round<G: Graph, L: Label>(graph: &G, old: &[L], new: &mut [L]) -> bool {
    let mut same = true;
    for to in 0..old.len() {
        let mut label = old[to];
        for from in 0..old.len() {
            if let Some(gap) = graph.gap(from, to) {
                label = label.join(old[from].carry(gap));
            }
        }
        same &= label.alike(old[to]);
        new[to] = label;
    }
    same
}

// How many rounds were run.
fn propagate<G: Graph, L: Label>(graph: &G, newest: &mut [L], before: &mut [L]) -> usize {
    for earlier in 0..graph.nodes() {
        before.copy_from_slice(newest);
        if round(graph, before, newest) {
            return earlier + 1;
        }
    }
    graph.nodes()
}

fn longest<G: Graph>(graph: &G, times: u32) -> usize {
    let mut rounds = 0;
    for _ in 0..times {
        let mut newest = [Place { at: Some(0) }; MOST];
        let mut before = [Place { at: None }; MOST];
        let n = graph.nodes();
        rounds += propagate(graph, &mut newest[..n], &mut before[..n]);
        black_box(&newest);
    }
    rounds
}

fn reach<G: Graph>(graph: &G, from: usize, times: u32) -> usize {
    let mut rounds = 0;
    for _ in 0..times {
        let n = graph.nodes();
        let mut newest = [Reach { yes: false }; MOST];
        let mut before = [Reach { yes: false }; MOST];
        for to in 0..n {
            newest[to].yes = graph.gap(from, to).is_some();
        }
        rounds += propagate(graph, &mut newest[..n], &mut before[..n]);
        black_box(&newest);
    }
    rounds
}

fn linked(nodes: usize) -> ArcTable {
    let mut table = ArcTable { nodes, arcs: [false; MOST * MOST] };
    for from in 0..nodes {
        for to in from + 1..nodes {
            if to - from == 1 || (from * 7 + to * 3) % 4 == 0 {
                table.arcs[from * MOST + to] = true;
            }
        }
    }
    table
}

unsafe extern "C" {
    fn places_over_table(nodes: usize, times: u32) -> u32;
    fn places_over_layer(nodes: usize, times: u32) -> u32;
    fn reaches_over_table(nodes: usize, times: u32) -> u32;
}

// The least of several runs, in nanoseconds.
fn least(mut run: impl FnMut()) -> f64 {
    (0..9)
        .map(|_| {
            let start = Instant::now();
            run();
            start.elapsed().as_nanos() as f64
        })
        .fold(f64::MAX, f64::min)
}

fn report(name: &str, nodes: usize, rounds: usize, proved: f64, plain: f64) {
    let asked = (rounds * nodes * nodes) as f64;
    println!("{name}: proved {:.3} ns, plain {:.3} ns a gap asked, ratio {:.2}", proved / asked, plain / asked, proved / plain);
}

fn main() {
    let nodes = black_box(MOST);
    let times = black_box(20);
    let table = black_box(linked(nodes));
    let mut cells = black_box([0u8; MOST * MOST]);
    for to in 1..nodes {
        cells[(to - 1) * nodes + to] = 1;
    }
    let layer = FlowLayer { below: &table, cells: &cells };

    let mut rounds = 0;
    let plain = least(|| rounds = longest(&table, times));
    let proved = least(|| assert_eq!(unsafe { places_over_table(nodes, times) }, times));
    report("places over a table", nodes, rounds, proved, plain);

    let plain = least(|| rounds = longest(&layer, times));
    let proved = least(|| assert_eq!(unsafe { places_over_layer(nodes, times) }, times));
    report("places over a flow layer", nodes, rounds, proved, plain);

    let plain = least(|| rounds = reach(&table, 0, times));
    let proved = least(|| assert_eq!(unsafe { reaches_over_table(nodes, times) }, times));
    report("reach over a table", nodes, rounds, proved, plain);
}

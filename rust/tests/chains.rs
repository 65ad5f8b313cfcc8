//! Chains of set operations: each step against the reference, held layers against the set words.

mod reference;
mod support;

use loxurfa::raw;
use reference::{first_overlap, read_layer, unfit, Step, Trapezoid, FILE_WORDS, WORDS};
use std::collections::HashSet;
use support::{assert_met, damage, point_near, rounds, Random, Scene};

/// A step as it is ordered: code, layer numbers, lengths of output and scratch area.
#[derive(Clone, Copy, Debug)]
struct Order {
    code: u32,
    a: usize,
    b: usize,
    out: usize,
    scratch: usize,
}

/// A chain run by the library and by the reference side by side.
struct Chain {
    start: usize,
    /// The layers held, from what the library answered and wrote.
    layers: Vec<Vec<i32>>,
    /// The same by the reference.
    expected: Vec<Vec<i32>>,
    orders: Vec<Order>,
    /// The steps for the tally, successes by the reference.
    steps: Vec<Step>,
    /// The answers; none for a step that was not called.
    answers: Vec<Option<u64>>,
}

impl Chain {
    fn new(start: &[Vec<i32>]) -> Chain {
        Chain {
            start: start.len(),
            layers: start.to_vec(),
            expected: start.to_vec(),
            orders: Vec::new(),
            steps: Vec::new(),
            answers: Vec::new(),
        }
    }

    fn results(&self) -> &[Vec<i32>] {
        &self.layers[self.start..]
    }

    fn step(&mut self, random: &mut Random, order: Order) {
        let Order { code, a, b, .. } = order;
        let mut success = false;
        let mut answer = None;
        if a < self.layers.len() && b < self.layers.len() {
            let garbage = (random.garbage(order.out), random.garbage(order.scratch));
            let (mut out, mut scratch) = garbage.clone();
            let (layer_a, layer_b) = (&self.layers[a], &self.layers[b]);
            let got = raw::combine(code, layer_a, layer_b, &mut out, &mut scratch);
            let (mut right_out, mut right_scratch) = garbage;
            let right = reference::combine(
                code,
                &self.expected[a],
                &self.expected[b],
                &mut right_out,
                &mut right_scratch,
            );
            assert!(
                got == right,
                "{got:#x}, not {right:#x}: {order:?} {layer_a:?} {layer_b:?}"
            );
            assert!(
                out == right_out && scratch == right_scratch,
                "{order:?} {layer_a:?} {layer_b:?}"
            );
            answer = Some(got);
            if got >> 63 == 0 {
                out.truncate((got >> 32) as usize * WORDS);
                self.layers.push(out);
            }
            if right >> 63 == 0 {
                success = true;
                right_out.truncate((right >> 32) as usize * WORDS);
                self.expected.push(right_out);
            }
        }
        self.orders.push(order);
        self.steps.push(Step {
            code,
            a,
            b,
            success,
        });
        self.answers.push(answer);
        assert!(self.layers == self.expected);
    }

    /// The entry of each layer for each choice of yes and no for the starting layers, one bit a
    /// choice.
    fn expressions(&self) -> Vec<u32> {
        let mut bits = vec![0; self.layers.len()];
        for choice in 0..1u32 << self.start {
            let fed: Vec<bool> = (0..self.start).map(|n| choice >> n & 1 == 1).collect();
            let entries = reference::evaluate(&fed, &self.steps);
            assert_eq!(entries.len(), bits.len());
            for (bit, entry) in bits.iter_mut().zip(entries) {
                *bit |= (entry as u32) << choice;
            }
        }
        bits
    }
}

/// Whether rows 7 to 11 pass the layer, which may have overlaps.
fn is_readable(layer: &[i32]) -> bool {
    layer.len().is_multiple_of(WORDS) && layer.chunks(WORDS).all(|record| unfit(record).is_none())
}

/// Whether the layer is fit as input of any call.
fn is_fit(layer: &[i32]) -> bool {
    is_readable(layer) && first_overlap(&[read_layer(layer)]).is_none()
}

/// One to four starting layers, disjoint; now and then one has overlaps, or an unfit trapezoid.
fn starting_layers(random: &mut Random) -> Vec<Vec<i32>> {
    let scene = Scene::new(random);
    let mut start: Vec<Vec<i32>> = (0..random.range(1, 4))
        .map(|_| scene.disjoint_layer(random, 4))
        .collect();
    if random.once_in(15) {
        let number = random.below(start.len());
        let mut layer = start[number].clone();
        damage(random, &mut layer);
        if !is_fit(&layer) {
            start[number] = layer;
        }
    }
    if random.once_in(10) {
        let number = random.below(start.len());
        start[number] = scene.layer(random, 4);
    }
    start
}

/// The number of a held layer, now and then of none.
fn number(random: &mut Random, held: usize) -> usize {
    match random.below(25) {
        0 => held + random.below(4),
        1 => held + 1000,
        _ => random.below(held),
    }
}

fn order(random: &mut Random, chain: &Chain) -> Order {
    let held = chain.layers.len();
    let code = match random.below(20) {
        0 => *random.pick(&[5, 6, 1000, u32::MAX]),
        _ => random.below(5) as u32,
    };
    let (a, b) = (number(random, held), number(random, held));
    let needed = if code < 5 && a < held && b < held {
        let (a, b) = (&chain.layers[a], &chain.layers[b]);
        if is_fit(a) && is_fit(b) {
            reference::room_to_combine(code, &read_layer(a), &read_layer(b))
        } else {
            10
        }
    } else {
        10
    };
    let records = match random.below(8) {
        0 => needed.saturating_sub(1),
        1 => random.below(needed + 1),
        2..=4 => needed,
        _ => needed + random.below(20),
    };
    // Layers stay short, so that chains stay quick.
    let mut out = records.min(48) * WORDS;
    let mut scratch = out;
    match random.below(30) {
        0 => {
            out += random.below(WORDS);
            scratch = out;
        }
        1 => scratch += WORDS,
        2 => scratch = random.below(out + 1),
        3 => {
            out = 513 * WORDS;
            scratch = out;
        }
        _ => {}
    }
    Order {
        code,
        a,
        b,
        out,
        scratch,
    }
}

/// Steps that follow a law of sets, so that different layers have agreeing set expressions.
fn law(random: &mut Random, chain: &mut Chain) {
    let held = chain.layers.len();
    let (a, b) = (random.below(held), random.below(held));
    // Each step: code and numbers; from `held` on they name results of the law itself.
    let steps: &[(u32, usize, usize)] = match random.below(6) {
        0 => &[(0, a, b), (0, b, a)],
        1 => &[(2, a, b), (1, a, b), (0, held, held + 1)],
        2 => &[(0, a, b), (1, a, b), (2, held, held + 1), (4, a, b)],
        3 => &[(2, a, b), (2, a, held), (1, b, a)],
        4 => &[(4, a, b), (4, held, b)],
        _ => &[(3, a, b), (0, held, a), (0, a, b)],
    };
    for &(code, a, b) in steps {
        chain.step(
            random,
            Order {
                code,
                a,
                b,
                out: 60 * WORDS,
                scratch: 60 * WORDS,
            },
        );
    }
}

fn random_chain(random: &mut Random, start: &[Vec<i32>], steps: usize) -> Chain {
    let mut chain = Chain::new(start);
    for _ in 0..steps {
        if random.once_in(5) {
            law(random, &mut chain);
        } else {
            let order = order(random, &chain);
            chain.step(random, order);
        }
    }
    chain
}

#[derive(Default, Debug)]
struct Met {
    successes: usize,
    not_called: usize,
    refusals: [usize; 14],
    in_layer: usize,
    out_of_layer: usize,
    /// Trapezoids of results that have source layers.
    sources: usize,
    same: usize,
    differs: [usize; 2],
    equal_refused: usize,
    agree: usize,
    /// Successes in a chain with a starting layer that has overlaps.
    results_beside: usize,
}

impl Met {
    fn note_steps(&mut self, chain: &Chain) {
        for answer in &chain.answers {
            match answer {
                None => self.not_called += 1,
                Some(answer) if answer >> 63 == 1 => {
                    self.refusals[(answer >> 32) as u8 as usize] += 1
                }
                Some(_) => self.successes += 1,
            }
        }
    }
}

/// The lines of a layer's trapezoids.
fn lines_of(layer: &[i32]) -> impl Iterator<Item = &[i32]> {
    let records = layer.chunks(WORDS);
    records.flat_map(|record| record[..FILE_WORDS].chunks(4))
}

/// Points against the tally; disjointness; lines word for word; fitness; each source layer of a trapezoid that
/// holds a point is one of a starting trapezoid that holds it. From any starting layers that can be
/// read: a call that is lent one with overlaps is refused and adds nothing.
fn check_points(random: &mut Random, chain: &Chain, met: &mut Met) {
    let layers: Vec<Vec<Trapezoid>> = chain.layers.iter().map(|words| read_layer(words)).collect();
    let start: Vec<&[Trapezoid]> = layers[..chain.start].iter().map(|l| &l[..]).collect();
    for _ in 0..8 {
        let p = point_near(random, &start);
        let fed: Vec<bool> = start
            .iter()
            .map(|layer| reference::lies_in(layer, p))
            .collect();
        let entries = reference::evaluate(&fed, &chain.steps);
        assert_eq!(entries.len(), layers.len());
        for (number, (layer, said)) in layers.iter().zip(entries).enumerate() {
            let times = reference::holders(layer, p);
            assert!((times > 0) == said, "{p:?} {:?}", chain.orders);
            let once = times <= 1 || number < chain.start && !is_fit(&chain.layers[number]);
            assert!(once, "{p:?} {:?}", chain.orders);
            for one in layer.iter().filter(|trapezoid| trapezoid.holds(p)) {
                let there = start.iter().copied().flatten().filter(|t| t.holds(p));
                let sources = there.fold(0, |sources, t| sources | t.sources);
                assert_eq!(one.sources & !sources, 0, "{p:?} {:?}", chain.orders);
                met.sources += (number >= chain.start && one.sources != 0) as usize;
            }
            if said {
                met.in_layer += 1;
            } else {
                met.out_of_layer += 1;
            }
        }
    }
    let lines: HashSet<&[i32]> = chain.layers[..chain.start]
        .iter()
        .flat_map(|layer| lines_of(layer))
        .collect();
    for layer in chain.results() {
        assert!(lines_of(layer).all(|line| lines.contains(line)));
        assert!(is_fit(layer));
    }
}

/// The sameness test between held layers, with an output and scratch area of its own.
fn check_equal(random: &mut Random, chain: &Chain, met: &mut Met) {
    let expressions = chain.expressions();
    let held = chain.layers.len();
    let mut pairs: Vec<(usize, usize)> = Vec::new();
    for _ in 0..3 {
        pairs.push((random.below(held), random.below(held)));
    }
    // Pairs whose set expressions agree.
    for _ in 0..20 {
        let (i, j) = (random.below(held), random.below(held));
        if i != j && expressions[i] == expressions[j] && pairs.len() < 7 {
            pairs.push((i, j));
        }
    }
    for (i, j) in pairs {
        let (a, b) = (&chain.layers[i], &chain.layers[j]);
        let fit = is_fit(a) && is_fit(b);
        let records = if fit {
            let needed = reference::room_to_equal(&read_layer(a), &read_layer(b));
            (needed + random.below(4)).saturating_sub(random.below(2))
        } else {
            random.below(9)
        };
        let words = records.min(512) * WORDS;
        let garbage = (random.garbage(words), random.garbage(words));
        let (mut out, mut scratch) = garbage.clone();
        let answer = raw::equal(a, b, &mut out, &mut scratch);
        let (mut right_out, mut right_scratch) = garbage;
        let right = reference::equal(a, b, &mut right_out, &mut right_scratch);
        assert!(answer == right, "{answer:#x}, not {right:#x}: {a:?} {b:?}");
        assert!(out == right_out && scratch == right_scratch);
        if answer >> 63 == 1 {
            met.equal_refused += 1;
            continue;
        }
        match answer >> 32 {
            0 => met.same += 1,
            value => met.differs[value as usize - 1] += 1,
        }
        if expressions[i] == expressions[j] {
            assert!(answer >> 32 == 0, "{:?} {i} {j}", chain.orders);
            met.agree += (i != j) as usize;
        }
    }
}

/// A step is refused for overlaps only if it borrows a starting layer that has some: no result has any. And a
/// step that borrows one adds nothing.
fn check_overlaps(chain: &Chain, met: &mut Met) {
    let mut from_disjoint = true;
    for layer in &chain.layers[..chain.start] {
        from_disjoint &= is_fit(layer) || !is_readable(layer);
    }
    for (order, answer) in chain.orders.iter().zip(&chain.answers) {
        let Some(answer) = answer else {
            continue;
        };
        let refused = answer >> 32 == 1 << 31 | 13;
        assert!(!refused || !from_disjoint, "{order:?}");
        let overlapping = |number: usize| {
            number < chain.start
                && is_readable(&chain.layers[number])
                && !is_fit(&chain.layers[number])
        };
        let lent = overlapping(order.a) || overlapping(order.b);
        assert!(!refused || lent, "{order:?}");
        assert!(!lent || answer >> 63 == 1, "{order:?}");
        met.results_beside += (!from_disjoint && answer >> 63 == 0) as usize;
    }
}

#[test]
fn chains() {
    let random = &mut Random(11);
    let rounds = rounds(25);
    let mut met = Met::default();
    for _ in 0..rounds {
        let start = starting_layers(random);
        let steps = random.below(9);
        let chain = random_chain(random, &start, steps);
        met.note_steps(&chain);
        if start.iter().all(|layer| is_readable(layer)) {
            check_points(random, &chain, &mut met);
        }
        check_overlaps(&chain, &mut met);
        check_equal(random, &chain, &mut met);
    }
    assert_met("successes", met.successes, rounds, 1);
    assert_met("not called", met.not_called, rounds, 20);
    for number in [1, 2, 12] {
        let name = format!("refused {number}");
        assert_met(&name, met.refusals[number], rounds, 20);
    }
    assert_met("unfit", met.refusals[7..12].iter().sum(), rounds, 50);
    assert_met("refused 13", met.refusals[13], rounds, 50);
    assert_met("results beside overlaps", met.results_beside, rounds, 50);
    assert_met("points in", met.in_layer, rounds, 1);
    assert_met("points out", met.out_of_layer, rounds, 1);
    assert_met("source layers", met.sources, rounds, 1);
    assert_met("same", met.same, rounds, 2);
    assert_met("differs 0", met.differs[0], rounds, 10);
    assert_met("differs 1", met.differs[1], rounds, 10);
    assert_met("equal refused", met.equal_refused, rounds, 20);
    assert_met("expressions agree", met.agree, rounds, 4);
}

/// Two chains from the same layers are one chain.
#[test]
fn two_chains() {
    let random = &mut Random(12);
    let rounds = rounds(10);
    let mut met = Met::default();
    let mut raised = 0;
    for _ in 0..rounds {
        let start = starting_layers(random);
        let first_steps = random.below(5);
        let first = random_chain(random, &start, first_steps);
        let second_steps = random.below(5);
        let second = random_chain(random, &start, second_steps);

        let count = first.results().len();
        let mut both = Chain::new(&start);
        for &order in &first.orders {
            both.step(random, order);
        }
        for &order in &second.orders {
            let mut raise = |number: usize| {
                if number < start.len() {
                    number
                } else {
                    raised += 1;
                    number + count
                }
            };
            let order = Order {
                a: raise(order.a),
                b: raise(order.b),
                ..order
            };
            both.step(random, order);
        }
        assert!(both.layers[..start.len()] == start);
        assert!(both.results()[..count] == *first.results());
        assert!(both.results()[count..] == *second.results());
        assert!(both.answers == [&first.answers[..], &second.answers[..]].concat());

        // The sameness test across the two.
        if start.iter().all(|layer| is_readable(layer)) {
            check_points(random, &both, &mut met);
        }
        check_overlaps(&both, &mut met);
        check_equal(random, &both, &mut met);
    }
    assert_met("numbers raised", raised, rounds, 2);
    assert_met("same", met.same, rounds, 4);
    assert_met("expressions agree", met.agree, rounds, 4);
}

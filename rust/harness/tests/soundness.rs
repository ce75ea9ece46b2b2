//! The model of an index's image and of question 3, without the port.

use harness::{
    images::{
        chains::{full, Form},
        samples::{headers, random_images},
        Tally,
    },
    jobs::{Job, Mode},
    model::{
        image::{encode, Shape},
        label_map::LabelMap,
        mutation::Rules,
        powers::Powers,
        soundness::{read, Rule},
        state::{Entry, State, Tree},
        Index, Kind, Opening,
    },
    words::calls,
};

const JOBS: u64 = 40;
const IMAGES: u64 = 40_000;

fn bytes(words: &[u32]) -> Vec<u8> {
    words.iter().flat_map(|word| word.to_le_bytes()).collect()
}

/// Its image is sound, and read back it is the same state.
fn check(state: &State) {
    let shape = Shape::of(state);
    let words = encode(state);
    assert_eq!(words.len(), shape.size());
    let most = 256 * (shape.variables + 2) * (shape.capacity + 1);
    assert!((17..=most).contains(&(4 * words.len())));

    let reading = read(&bytes(&words));
    assert!(reading.is_sound(), "{:?}", reading.broken);
    assert_eq!(reading.state.as_ref(), Some(state));
    if shape.kind == Kind::Ratio {
        let map = LabelMap::read(&words[shape.labels_at()..]).expect("a label map");
        let labels = &words[shape.labels_at()..shape.nodes_at()];
        assert_eq!(map.words(), labels);
    }
}

#[test]
fn images_of_jobs_are_sound() {
    let mut branches = 0;
    for mode in Mode::ALL {
        for seed in 0..JOBS {
            let job = Job::new(mode, seed);
            let mut index = Index::open(&job.opening, Rules::document_01());
            for call in calls(&job.list) {
                index.call(call);
            }
            branches += index.branches().len();
            check(&index.state());
        }
    }
    assert!(branches > 1000);
}

#[test]
fn images_of_openings_are_sound() {
    for kind in [Kind::Monomial, Kind::Ratio] {
        for (variables, capacity) in [(1, 1), (1, 4096), (64, 1), (64, 4096)] {
            let opening = Opening {
                kind,
                capacity,
                maxima: vec![1; variables],
            };
            check(&Index::open(&opening, Rules::document_01()).state());
        }
    }
}

/// Two variables, capacity 3: x1^2 / (x1^2 · x0), x1 / x1 and x0 / x0^2, all of
/// index 5, under a branch by the ratio of entry 1.
fn example() -> State {
    let entry = |sign: [i32; 2], lm: [i32; 2]| Entry {
        index: 5,
        sign: Powers(sign.to_vec()),
        lm: Powers(lm.to_vec()),
    };
    let entries = vec![
        entry([0, 2], [1, 2]),
        entry([0, 1], [0, 1]),
        entry([1, 0], [2, 0]),
    ];
    State {
        kind: Kind::Ratio,
        capacity: 3,
        maxima: vec![2, 2],
        map_maxima: vec![1, 1],
        rows: vec![
            (entries[0].ratio(), 0x7FFF_FFFF),
            (entries[1].ratio(), 0xBFFF_FFFF),
        ],
        entries,
        tree: Tree::branch(0, 1, Tree::Leaf(vec![0, 2]), Tree::Leaf(vec![1])),
    }
}

#[rustfmt::skip]
const EXAMPLE: [u32; 129] = [
    1, 1, 2, 3, 3, 3, 0, 0, 0, 0, 0, 0, 0, 0, 0, 0, 0, 0, 0, 0, 0, 0, 0, 0,
    2, 2,
    1, 1,
    0x1001_0002, 0x1000_0001, 2, 0xFFFF_FFFF, 0x0003_0001, 0x3000_0005, 0x1001_0002, 1, 0, 0xFFFF_0000, 0x0003_0000, 0,
    0x1001_0001, 1, 0, 0xFFFF_0000, 0x0001_0000, 0x3000_0005, 0x1001_0001, 1, 0, 0xFFFF_0000, 0x0001_0000, 1,
    0x1000_0002, 1, 0, 0x0000_FFFF, 0x0000_0003, 0x3000_0005, 0x1000_0001, 1, 0, 0x0000_FFFF, 0x0000_0001, 0,
    0, 2, 1,
    1, 2, 3, 2,
    0x3000_0005, 0x2000_7FFF, 1, 0, 0x7FFF_FFFF,
    0x3000_0005, 0, 0, 0, 0xBFFF_FFFF,
    0, 0, 0, 0, 0,
    0, 1, 0,
    1, 1, 3, 1, 0, 0, 0, 0,
    0, 0, 2, 0, 0x0000_FFFF, 0x1000_0001, 1, 0,
    0, 0, 1, 0, 0xFFFF_0000, 0x1001_0001, 1, 0,
    0, 0, 0, 0, 0, 0, 0, 0,
    0, 0, 0, 0, 0, 0, 0, 0,
];

/// The worked example of docs/LAYOUT.md.
#[test]
fn worked_example() {
    check(&example());
    assert_eq!(encode(&example()), EXAMPLE);

    // The key is entry 0's ratio, which is not above itself.
    let mut words = EXAMPLE;
    words[90] = 0;
    let reading = read(&bytes(&words));
    assert_eq!(reading.only(), Some(Rule::LessBelow));
}

#[test]
fn deep_trees_are_sound() {
    for kind in [Kind::Monomial, Kind::Ratio] {
        for form in Form::ALL {
            for (variables, capacity) in [(1, 1), (1, 2), (2, 7), (3, 300), (64, 200)] {
                check(&full(kind, variables, capacity, form));
            }
        }
    }
}

/// Each rule, left out, is noticed: some image breaks it alone.
#[test]
fn every_rule_is_needed() {
    let mut tally = Tally::default();
    let mut visit = |image: &[u8]| {
        tally.count(&read(image));
        Ok(())
    };
    headers(&mut visit).unwrap();
    random_images(IMAGES, 1, &mut visit).unwrap();
    assert_eq!(tally.unnoticed(), []);
}

//! The roads that are timed.

use second::build::tight;
use second::limits::{AMOUNT, CABINETS, NO_PARENT, SERVICES, STREAMS};
use second::random::Random;
use second::{Cabinet, Pair, Sheet, Stream};

/// The form of a road's tree.
#[derive(Clone, Copy, PartialEq)]
enum Tree {
    Star,
    Chain,
    Random,
    /// Two chains whose numbers alternate.
    Legs,
}

/// What the amounts of a road are like, and whether it has barred pairs or joints.
#[derive(Clone, Copy, PartialEq)]
enum Manner {
    /// Each cabinet holds some of the services, and each link carries some of the streams.
    Usual,
    /// The same, with a quarter of all pairs barred.
    Barred,
    /// The same without them, with every third cabinet a joint.
    Jointed,
    /// The same without them, with prices up to the largest, so that hardly any splits tie.
    Wide,
    /// Equal prices, free links, and room for everything everywhere: all that can tie does.
    Tied,
}

/// A tree with a manner of amounts.
#[derive(Clone, Copy, PartialEq)]
pub struct Shape {
    tree: Tree,
    manner: Manner,
}

const fn shape(tree: Tree, manner: Manner) -> Shape {
    Shape { tree, manner }
}

impl Shape {
    pub const ALL: [Shape; 10] = [
        shape(Tree::Star, Manner::Usual),
        shape(Tree::Chain, Manner::Usual),
        shape(Tree::Random, Manner::Usual),
        shape(Tree::Random, Manner::Barred),
        shape(Tree::Random, Manner::Jointed),
        shape(Tree::Legs, Manner::Wide),
        shape(Tree::Star, Manner::Tied),
        shape(Tree::Chain, Manner::Tied),
        shape(Tree::Random, Manner::Tied),
        shape(Tree::Legs, Manner::Tied),
    ];

    /// A chain with the usual amounts.
    pub const CHAIN: Shape = shape(Tree::Chain, Manner::Usual);

    /// A random tree with the usual amounts.
    pub const TREE: Shape = shape(Tree::Random, Manner::Usual);

    pub fn name(self) -> String {
        let tree = match self.tree {
            Tree::Star => "star",
            Tree::Chain => "chain",
            Tree::Random => "random tree",
            Tree::Legs => "two legs",
        };
        match self.manner {
            Manner::Usual | Manner::Wide => tree.to_string(),
            Manner::Barred => format!("{tree}, barred"),
            Manner::Jointed => format!("{tree}, joints"),
            Manner::Tied => format!("{tree}, all ties"),
        }
    }

    /// The ratios of such roads are in the mean.
    pub fn is_usual(self) -> bool {
        self.manner == Manner::Usual
    }

    /// The numbers of cabinets that such roads are timed with.
    pub fn cabinets(self) -> &'static [usize] {
        match self.manner {
            Manner::Usual | Manner::Barred | Manner::Jointed => &[10, 50, 200],
            Manner::Wide | Manner::Tied => &[200],
        }
    }

    fn parent(self, random: &mut Random, c: usize) -> u16 {
        match self.tree {
            _ if c == 0 => NO_PARENT,
            Tree::Star => 0,
            Tree::Chain => c as u16 - 1,
            Tree::Random => random.below(c) as u16,
            Tree::Legs => c.saturating_sub(2) as u16,
        }
    }

    /// Capacity, price, and the four fields of the link of cabinet c.
    fn amounts(self, random: &mut Random, c: usize) -> [u16; 6] {
        if self.manner == Manner::Tied {
            let link = if c == 0 { 0 } else { AMOUNT };
            return [AMOUNT, 1, link, 0, link, 0];
        }
        let times = if self.manner == Manner::Wide { 100 } else { 1 };
        let mut amount = |low, high| random.between(low, high) as u16;
        let [mut capacity, price] = [amount(60, 300), amount(1, 100 * times)];
        if self.manner == Manner::Jointed && c % 3 == 2 {
            capacity = 0;
        }
        let [up, up_price, down, down_price] = match c {
            0 => [0; 4],
            _ => [
                amount(100, 600),
                amount(0, 20 * times),
                amount(100, 600),
                amount(0, 20 * times),
            ],
        };
        [capacity, price, up, up_price, down, down_price]
    }
}

/// The sheet of a road of this shape.
pub fn sheet(shape: Shape, services: usize, cabinets: usize) -> Vec<u8> {
    tight(&records(shape, services, cabinets))
}

/// A road of this shape with 20 streams.
pub fn records(shape: Shape, services: usize, cabinets: usize) -> Sheet {
    let mut random = Random::new(5);
    let mut amount = |low, high| random.between(low, high) as u16;
    let demands = (0..services).map(|_| amount(1, 100)).collect();
    let streams = (0..20).map(|k| Stream {
        from: (k % services) as u16,
        to: ((k + 1 + k / services % (services - 1)) % services) as u16,
        demand: amount(1, 50),
    });
    let streams = streams.collect();
    let cabinet = |c: usize| {
        let [capacity, price, up, up_price, down, down_price] = shape.amounts(&mut random, c);
        let parent = shape.parent(&mut random, c);
        Cabinet::from_words([parent, capacity, price, up, up_price, down, down_price])
    };
    Sheet {
        services: demands,
        streams,
        cabinets: (0..cabinets).map(cabinet).collect(),
        barred: match shape.manner {
            Manner::Barred => some_pairs(services, cabinets),
            _ => vec![],
        },
    }
}

/// A chain of as many cabinets as there can be, with room for everything, and as many services and
/// streams; and a plan that spreads the services along it from end to end.
pub fn largest_chain() -> (Vec<u8>, Vec<u16>) {
    let cabinet = |c: u16| match c {
        0 => Cabinet::from_words([NO_PARENT, AMOUNT, 1, 0, 0, 0, 0]),
        _ => Cabinet::from_words([c - 1, AMOUNT, 1, AMOUNT, 1, AMOUNT, 1]),
    };
    let r = SERVICES as u16;
    let stream = |k: u16| Stream {
        from: k % r,
        to: (k + 1 + k / r % (r - 1)) % r,
        demand: 1 + k % 50,
    };
    let sheet = Sheet {
        services: (1..=r).collect(),
        cabinets: (0..CABINETS as u16).map(cabinet).collect(),
        streams: (0..STREAMS as u16).map(stream).collect(),
        barred: vec![],
    };
    let last = CABINETS as u16 - 1;
    let plan = (0..r).map(|service| service * last / (r - 1)).collect();
    (tight(&sheet), plan)
}

/// About a quarter of all pairs.
fn some_pairs(services: usize, cabinets: usize) -> Vec<Pair> {
    let mut random = Random::new(6);
    let all = (0..services * cabinets).map(|k| Pair {
        service: (k / cabinets) as u16,
        cabinet: (k % cabinets) as u16,
    });
    all.filter(|_| random.once_in(4)).collect()
}

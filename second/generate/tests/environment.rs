//! Environments against the plainest model of them: a map from paths to nodes.

use std::collections::BTreeMap;

use generate::Random;
use second::environment::{is_subtype, Environment, Lookup, Node};
use second::Basic;

/// In the order of a map's keys a path stands before its children and these in rising order.
type Model = BTreeMap<Vec<u16>, (bool, Basic)>;

/// A type: its root at the empty path.
fn some_type(random: &mut Random) -> Model {
    let mut model = Model::from([(vec![], (true, some_basic(random)))]);
    for _ in 0..random.below(6) {
        let parents: Vec<Vec<u16>> = model.keys().filter(|path| path.len() < 3).cloned().collect();
        let mut path = random.pick(&parents).expect("the root").clone();
        path.push(random.between(1, 3) as u16);
        model.entry(path).or_insert((random.one_in(2), some_basic(random)));
    }
    model
}

/// Few types, so that they fit each other often.
fn some_basic(random: &mut Random) -> Basic {
    if random.below(5) > 0 {
        Basic::Void
    } else {
        Basic::Int
    }
}

/// The same type in preorder.
fn preorder(model: &Model) -> Vec<Node> {
    let size = |path: &[u16]| model.keys().filter(|other| other.starts_with(path)).count() as u8;
    let id = |path: &[u16]| path.last().copied().unwrap_or(0);
    let node = |(path, &(mandatory, basic)): (&Vec<u16>, &(bool, Basic))| Node {
        id: id(path),
        mandatory,
        basic,
        size: size(path),
    };
    model.iter().map(node).collect()
}

fn children(model: &Model, path: &[u16]) -> Vec<u16> {
    let below = model.keys().filter(|other| other.len() == path.len() + 1 && other.starts_with(path));
    below.filter_map(|other| other.last().copied()).collect()
}

fn step(path: &[u16], id: u16) -> Vec<u16> {
    [path, &[id]].concat()
}

/// The paper's sentence, child by child.
fn fits(left: &Model, at_left: &[u16], right: &Model, at_right: &[u16]) -> bool {
    let (lefts, rights) = (children(left, at_left), children(right, at_right));
    left[at_left].1 == right[at_right].1
        && lefts.iter().all(|id| rights.contains(id))
        && rights.iter().all(|&id| {
            let (in_left, in_right) = (step(at_left, id), step(at_right, id));
            let optional = !right[&in_right].0;
            match left.get(&in_left) {
                Some(&(mandatory, _)) => (mandatory || optional) && fits(left, &in_left, right, &in_right),
                None => optional,
            }
        })
}

fn firm(model: &Model, path: &[u16]) -> bool {
    (1..=path.len()).all(|length| model.get(&path[..length]).is_some_and(|node| node.0))
}

/// Placing, as the paper has it; the refusal's number.
fn place(model: &mut Model, path: &[u16], tree: &Model) -> Result<(), u8> {
    let above = &path[..path.len() - 1];
    if model.contains_key(path) {
        return match (firm(model, above), fits(tree, &[], model, path)) {
            (false, _) => Err(7),
            (true, false) => Err(9),
            (true, true) => Ok(()),
        };
    }
    let longest = (0..path.len()).rev().find(|&length| length == 0 || model.contains_key(&path[..length]));
    let longest = longest.expect("the empty part");
    if !firm(model, &path[..longest]) {
        return Err(7);
    }
    let mut grown = model.clone();
    for length in longest + 1..path.len() {
        grown.insert(path[..length].to_vec(), (true, Basic::Void));
    }
    for (below, &(mandatory, basic)) in tree {
        grown.insert([path, below].concat(), (mandatory || below.is_empty(), basic));
    }
    if grown.len() > 48 || grown.keys().any(|path| path.len() > 6) {
        return Err(12);
    }
    *model = grown;
    Ok(())
}

fn assign(model: &mut Model, path: &[u16], basic: Basic) -> Result<(), u8> {
    let Some(&(mandatory, there)) = model.get(path) else {
        return place(model, path, &Model::from([(vec![], (true, basic))]));
    };
    let has_mandatory = children(model, path).iter().any(|&id| model[&step(path, id)].0);
    if !firm(model, &path[..path.len() - 1]) {
        Err(7)
    } else if there != basic {
        Err(9)
    } else if !mandatory && has_mandatory {
        Err(7)
    } else {
        Ok(())
    }
}

fn seen(environment: &Environment) -> Model {
    let mut model = Model::new();
    environment.visit(|path, node| {
        model.insert(path.to_vec(), (node.mandatory, node.basic));
    });
    model
}

#[test]
fn environments_are_what_the_model_says() {
    let mut random = Random::new(17);
    let mut results = BTreeMap::new();
    for _ in 0..400 {
        let (mut model, mut environment) = (Model::new(), Environment::default());
        for _ in 0..40 {
            let path: Vec<u16> = (0..random.between(1, 4)).map(|_| random.between(1, 4) as u16).collect();
            let (expected, found) = if random.one_in(3) {
                let basic = some_basic(&mut random);
                (assign(&mut model, &path, basic), environment.assign(&path, basic))
            } else {
                let tree = some_type(&mut random);
                (place(&mut model, &path, &tree), environment.place(&path, &preorder(&tree)))
            };
            assert_eq!(found.map_err(|cause| cause.number()), expected, "{path:?} in {model:?}");
            assert_eq!(seen(&environment), model);
            assert_eq!(environment.nodes(), &preorder(&model)[..]);
            let lookup = match environment.lookup(&path) {
                Lookup::Missing => None,
                Lookup::Found { at, firm } => Some((environment.nodes()[at].basic, firm)),
            };
            assert_eq!(lookup, model.get(&path).map(|node| (node.1, firm(&model, &path))));
            *results.entry(expected.err().unwrap_or(0)).or_insert(0) += 1;
        }
    }
    assert!([0, 7, 9, 12].iter().all(|number| results[number] > 100), "{results:?}");
}

#[test]
fn subtyping_is_what_the_model_says() {
    let mut random = Random::new(18);
    let mut fitting = 0;
    for _ in 0..20_000 {
        let (left, right) = (some_type(&mut random), some_type(&mut random));
        let expected = fits(&left, &[], &right, &[]);
        assert_eq!(is_subtype(&preorder(&left), &preorder(&right)), expected, "{left:?} {right:?}");
        fitting += usize::from(expected);
    }
    assert!((1000..19_000).contains(&fitting), "{fitting} of 20000 fit");
}

#[test]
fn a_union_has_the_roots_of_both_or_is_refused() {
    let mut random = Random::new(19);
    let mut refused = 0;
    for _ in 0..2000 {
        let mut sides = [(Model::new(), Environment::default()), (Model::new(), Environment::default())];
        for (model, environment) in &mut sides {
            for _ in 0..random.between(0, 3) {
                let path: Vec<u16> = (0..random.between(1, 2)).map(|_| random.between(1, 3) as u16).collect();
                let basic = some_basic(&mut random);
                let _ = (assign(model, &path, basic), environment.assign(&path, basic));
            }
        }
        let [(left, mut united), (right, other)] = sides;
        let tree = |model: &Model, root: u16| -> Model {
            model.iter().filter(|(path, _)| path[0] == root).map(|(path, node)| (path.clone(), *node)).collect()
        };
        let agree = (1..=3).all(|root| {
            let (a, b) = (tree(&left, root), tree(&right, root));
            a.is_empty() || b.is_empty() || a == b
        });
        assert_eq!(united.unite(&other).is_ok(), agree, "{left:?} {right:?}");
        if agree {
            let expected: Model = left.into_iter().chain(right).collect();
            assert_eq!(seen(&united), expected);
        }
        refused += usize::from(!agree);
    }
    assert!((200..1800).contains(&refused), "{refused} of 2000 refused");
}

//! States that no move would leave: of the shape but ill typed, or bytes that stand for no state.

use second::network::{Behaviour, Direction, Expression, Network, Path};
use stepper::encode::{encode, slot, ENTRIES, ENTRY, KEY_END, MESSAGE, ROW, ROWS, ROWS_END, SLOT, STATE, TREE};
use stepper::rows::Rows;
use stepper::state::{holds_key, Destination, Progress, Queued, Session, State, QUEUE, SESSIONS};
use stepper::Tree;

use super::ends::ends;
use super::outside::{fitting, set_basic, some_node};
use crate::keys::{self, held};
use crate::messages;
use crate::nests::reach::{finish, reach};
use crate::networks::value;
use crate::random::Random;
use crate::strings::held::{break_one, in_queues, in_trees};
use crate::strings::well_formed;

/// Changes a state of the shape into another one.
pub fn state(random: &mut Random, network: &Network, state: &mut State) {
    let live = live_sessions(state);
    if random.one_in(12) || live.is_empty() {
        return wake(random, network, state);
    }
    if random.one_in(4) {
        return converse(random, network, state);
    }
    let Some(&(service, number)) = random.pick(&live) else { return };
    if random.one_in(25) {
        state.services[service][number] = None;
        return;
    }
    if random.one_in(6) && holds_key(network, service, number) {
        let key = free_key(random, state, service);
        state.services[service][number].iter_mut().for_each(|session| session.key = Some(key));
        return;
    }
    let rows = Rows::of(network);
    let Some(root) = rows.root(service, number) else { return };
    if let Some(session) = state.live_mut(service, number) {
        change(random, &rows, root, service, session);
    }
}

/// Changes a live session that runs this root.
fn change(random: &mut Random, rows: &Rows, root: usize, service: usize, session: &mut Session) {
    let network = rows.network;
    let own = own_rows(rows, root);
    if own.len() <= 60 && random.one_in(8) {
        return ends(random, rows, root, session);
    }
    // Moves alone seldom get to the end of a large behaviour.
    if random.one_in(if own.len() > 60 { 2 } else { 4 }) {
        return arrive(random, rows, &own, session);
    }
    match random.below(13) {
        0 | 1 => {
            if let Some(node) = some_node(random, &mut session.tree, false) {
                set_basic(random, node);
            }
        }
        2 => prune(random, &mut session.tree),
        3 => crowd(random, &mut session.tree),
        4 | 9 => {
            let sent = sent_paths(rows, root, session);
            let any = network.paths.iter().collect();
            let paths = if sent.is_empty() || random.one_in(3) { any } else { sent };
            grow(random, &paths, &mut session.tree);
        }
        5 | 6 => fill(random, network, service, session),
        7 => mark(random, rows, &own, session),
        10..=12 => early(random, rows, root, session),
        _ => redirect(random, network, session),
    }
}

/// One of a session's rows is reached, undone or done, or all of them are done.
fn arrive(random: &mut Random, rows: &Rows, own: &[usize], session: &mut Session) {
    session.progress.fill(Progress::Undone);
    let deep = own.len() - own.len().min(random.between(1, 4));
    let row = own[if random.one_in(4) { random.below(own.len()) } else { deep }];
    if random.one_in(6) {
        return finish(rows.network, &mut session.progress, own[0]);
    }
    reach(rows.network, &mut session.progress, row, Destination::Outsider(random.draw() as u32));
    if random.one_in(4) {
        finish(rows.network, &mut session.progress, row);
    }
}

/// Drops children of some node, or most roots.
fn prune(random: &mut Random, tree: &mut Tree) {
    let (whole, kept) = (random.one_in(2), random.below(2));
    match some_node(random, tree, false) {
        Some(node) if !whole => node.children.truncate(kept),
        _ => tree.children.truncate(kept),
    }
}

fn live_sessions(state: &State) -> Vec<(usize, usize)> {
    let numbers = (0..state.services.len()).flat_map(|service| (0..SESSIONS).map(move |number| (service, number)));
    numbers.filter(|&(service, number)| state.live(service, number).is_some()).collect()
}

/// A session that is live with nothing done, a starter's too.
fn wake(random: &mut Random, network: &Network, state: &mut State) {
    let (service, number) = (random.below(network.services.len()), random.below(SESSIONS));
    let rows = Rows::of(network);
    if rows.root(service, number).is_some() && state.live(service, number).is_none() {
        let key = holds_key(network, service, number).then(|| free_key(random, state, service));
        state.services[service][number] = Some(Session { key, ..Session::new(network) });
    }
}

/// A key that no session of a service holds.
fn free_key(random: &mut Random, state: &State, service: usize) -> i32 {
    let held: Vec<i32> = state.services[service].iter().flatten().filter_map(|session| session.key).collect();
    keys::other_than(random, &held)
}

/// Roots that nobody reads, up to 48 nodes or a few less.
fn crowd(random: &mut Random, tree: &mut Tree) {
    crowd_to(random, tree, 45);
}

/// The same, up to 48 nodes or down to a least number.
pub fn crowd_to(random: &mut Random, tree: &mut Tree, least: usize) {
    let wanted = random.between(least, 48);
    let mut id = 50_000;
    while tree.nodes() - 1 < wanted {
        let basic = second::Basic::ALL[random.below(7)];
        let bytes = value(random, basic);
        if let Some(value) = second::Value::read(basic, &bytes) {
            tree.assign(&[id], &value);
        }
        id += 1;
    }
}

/// More nodes along a path and below it, so that the tree there may be no message any more.
fn grow(random: &mut Random, paths: &[&Path], tree: &mut Tree) {
    let room = 48 - (tree.nodes() - 1).min(48);
    let Some(path) = random.pick(paths) else { return };
    let basic = second::Basic::ALL[random.below(7)];
    let bytes = value(random, basic);
    let Some(value) = second::Value::read(basic, &bytes) else { return };
    if room < 8 {
        return;
    }
    tree.assign(path.ids(), &value);
    if random.one_in(2) {
        let most = (room - 4).min(20);
        let count = random.between(most / 2, most) as u16;
        let below = |id: u16| [path.ids(), &[id]].concat();
        (1..=count).for_each(|id| tree.assign(&below(100 + id), &second::Value::Void));
    } else if path.ids().len() < 3 {
        tree.assign(&[path.ids(), &[7, 7, 7, 7][..6 - path.ids().len().max(2)]].concat(), &value);
    }
}

/// Paths whose whole trees the session may send now.
fn sent_paths<'a>(rows: &Rows<'a>, root: usize, session: &Session) -> Vec<&'a Path> {
    let network = rows.network;
    let sent = |row: usize| match network.behaviours[row] {
        Behaviour::Notification { expression, .. } | Behaviour::SolicitResponse { expression, .. } => {
            match network.expressions[expression] {
                Expression::Path(path) => Some(&network.paths[path]),
                _ => None,
            }
        }
        _ => None,
    };
    rows.ready(session, root).iter().filter_map(|ready| sent(ready.row)).collect()
}

fn some_destination(random: &mut Random, network: &Network) -> Destination {
    if random.one_in(2) {
        return Destination::Outsider(random.draw() as u32);
    }
    let asks: Vec<usize> = (0..network.behaviours.len())
        .filter(|&row| matches!(network.behaviours[row], Behaviour::SolicitResponse { .. }))
        .collect();
    let any = random.below(network.behaviours.len().max(1));
    let row = if random.one_in(3) { any } else { random.pick(&asks).copied().unwrap_or(any) };
    Destination::Row { service: random.below(network.services.len()), session: random.below(SESSIONS), row }
}

/// Messages in the queue, fitting or not.
fn fill(random: &mut Random, network: &Network, service: usize, session: &mut Session) {
    let inputs: Vec<usize> = (0..network.operations.len())
        .filter(|&row| (network.operations[row].service, network.operations[row].direction) == (service, Direction::In))
        .collect();
    let wanted = if random.one_in(2) { QUEUE } else { random.between(1, QUEUE) };
    while session.queue.len() < wanted {
        let Some(&operation) = random.pick(&inputs) else { return };
        let row = &network.operations[operation];
        let mut message = fitting(random, network, row.request);
        if random.one_in(4) {
            message = Tree::read_message(&messages::message(random).0).unwrap_or(message);
        }
        let destination = row.reply.map(|_| some_destination(random, network));
        session.queue.push(Queued { operation, message, destination });
    }
}

fn own_rows(rows: &Rows, root: usize) -> Vec<usize> {
    [&[root][..], &rows.below(root)].concat()
}

/// Marks before their time: a choice taken without its input, an input received without its choice,
/// rows below a while that is not entered.
fn early(random: &mut Random, rows: &Rows, root: usize, session: &mut Session) {
    let ready = rows.ready(session, root);
    let settling: Vec<_> = ready.iter().filter_map(|ready| Some((ready.row, ready.settles?))).collect();
    let is_while = |row: &usize| matches!(rows.network.behaviours[*row], Behaviour::While { .. });
    let whiles: Vec<usize> = ready.iter().map(|ready| ready.row).filter(is_while).collect();
    if let Some(&row) = random.pick(&whiles) {
        mark(random, rows, &rows.below(row), session);
    }
    let Some(&(input, (choice, branch))) = random.pick(&settling) else { return };
    match rows.network.behaviours[input] {
        _ if random.one_in(3) => session.progress[choice] = Progress::Taken(branch),
        Behaviour::RequestResponse { .. } => {
            session.progress[input] = Progress::Received(some_destination(random, rows.network));
        }
        _ => session.progress[choice] = Progress::Taken(branch),
    }
}

/// Progress of some of the rows that suits their kinds.
fn mark(random: &mut Random, rows: &Rows, own: &[usize], session: &mut Session) {
    for _ in 0..random.between(1, 4) {
        let Some(&row) = random.pick(own) else { return };
        let network = rows.network;
        let choices = match &network.behaviours[row] {
            Behaviour::OneWay { .. } | Behaviour::Notification { .. } | Behaviour::Assign { .. } => {
                vec![Progress::Done]
            }
            Behaviour::RequestResponse { .. } => {
                let received = Progress::Received(some_destination(random, network));
                vec![Progress::Done, received, received]
            }
            Behaviour::SolicitResponse { .. } => vec![Progress::Done, Progress::Waiting, Progress::Waiting],
            Behaviour::If { .. } => vec![Progress::Taken(0), Progress::Taken(1)],
            Behaviour::While { .. } => vec![Progress::Taken(0), Progress::Done],
            Behaviour::Choice { branches } => (0..branches.len()).map(Progress::Taken).collect(),
            _ => Vec::new(),
        };
        session.progress[row] = match random.pick(&choices) {
            Some(&progress) if !random.one_in(4) => progress,
            _ => Progress::Undone,
        };
    }
}

/// A request-response that has nothing left to do but reply, and somebody waiting for it.
fn converse(random: &mut Random, network: &Network, state: &mut State) {
    let rows = Rows::of(network);
    let live = live_sessions(state);
    let mut asks = Vec::new();
    let mut answers = Vec::new();
    for (service, session) in live {
        for row in (0..network.behaviours.len()).filter(|&row| rows.belongs(service, session, row)) {
            match network.behaviours[row] {
                Behaviour::SolicitResponse { .. } => asks.push((service, session, row)),
                Behaviour::RequestResponse { body, reply, .. } => answers.push((service, session, row, body, reply)),
                _ => {}
            }
        }
    }
    let mut destination = Destination::Outsider(random.draw() as u32);
    if let Some(&(service, session, row)) = random.pick(&asks) {
        if let Some(live) = state.live_mut(service, session).filter(|_| !random.one_in(4)) {
            live.progress[row] = Progress::Waiting;
            if random.one_in(4) {
                crowd(random, &mut live.tree);
            }
            destination = Destination::Row { service, session, row };
            if random.one_in(3) {
                answers.retain(|answer| (answer.0, answer.1) == (service, session));
            }
        }
    }
    let Some(&(service, session, row, body, reply)) = random.pick(&answers) else { return };
    let Some(live) = state.live_mut(service, session) else { return };
    live.progress[row] = Progress::Received(destination);
    complete(&rows, body, live);
    if live.tree.nodes() < 26 && random.one_in(2) {
        let nodes = random.between(0, 17) as u16;
        let path = network.paths[reply].ids();
        (1..=nodes).for_each(|id| live.tree.assign(&[path, &[200 + id]].concat(), &second::Value::Void));
    }
}

/// Marks what it takes for a row to be done.
fn complete(rows: &Rows, row: usize, session: &mut Session) {
    let behaviour = &rows.network.behaviours[row];
    session.progress[row] = match behaviour {
        Behaviour::Nil | Behaviour::Sequence(..) | Behaviour::Parallel(..) | Behaviour::Branch { .. } => {
            Progress::Undone
        }
        Behaviour::If { .. } | Behaviour::Choice { .. } => Progress::Taken(0),
        _ => Progress::Done,
    };
    for part in behaviour.parts() {
        complete(rows, part, session);
    }
}

/// Other destinations of what is queued or received.
fn redirect(random: &mut Random, network: &Network, session: &mut Session) {
    for queued in &mut session.queue {
        if queued.destination.is_some() {
            queued.destination = Some(some_destination(random, network));
        }
    }
    for progress in &mut session.progress {
        if matches!(progress, Progress::Received(_)) {
            *progress = Progress::Received(some_destination(random, network));
        }
    }
}

/// Changes bytes so that they stand for no state most of the time.
pub fn bytes(random: &mut Random, network: &Network, state: &State, bytes: &mut [u8]) {
    if bytes.len() != STATE {
        return;
    }
    if random.one_in(if network.services.iter().any(|service| service.key.is_some()) { 2 } else { 10 }) {
        return key(random, network, bytes);
    }
    let live = live_sessions(state);
    let Some(&(service, number)) = random.pick(&live) else { return any_byte(random, bytes) };
    let start = slot(service, number);
    let rows = Rows::of(network);
    let own = rows.root(service, number).map_or(Vec::new(), |root| own_rows(&rows, root));
    match random.below(15) {
        0 => any_byte(random, bytes),
        1 => bytes[start] = *random.pick(&[0, 2, 255]).expect("three"),
        2 => {
            let kept = [1, random.between(KEY_END, TREE - 1), random.between(ROWS_END, SLOT - 1)];
            bytes[start + random.pick(&kept).expect("three")] = random.between(1, 255) as u8;
        }
        3 => sleeper(random, bytes),
        4 => tree(random, &mut bytes[start..start + SLOT]),
        5 => entry(random, &mut bytes[start + ENTRIES..start + ROWS]),
        6 | 7 => queued(random, network, state, (service, number), bytes),
        8 => row(random, network, &mut bytes[start + ROWS..start + ROWS_END]),
        9 => part(random, network, &own, &mut bytes[start + ROWS..start + ROWS_END]),
        10 | 11 => tree_string(random, state, (service, number), bytes),
        12 | 13 => queued_string(random, network, state, (service, number), bytes),
        _ => destination(random, network, &own, &mut bytes[start + ROWS..start + ROWS_END]),
    }
}

fn any_byte(random: &mut Random, bytes: &mut [u8]) {
    let at = random.below(bytes.len());
    bytes[at] = random.byte();
}

/// A live session in some slot, also where nobody runs.
fn sleeper(random: &mut Random, bytes: &mut [u8]) {
    lie_down(&mut bytes[SLOT * random.below(16)..]);
}

/// A live session with nothing in it in the first slot.
fn lie_down(bytes: &mut [u8]) {
    let slot = &mut bytes[..SLOT];
    slot.fill(0);
    (slot[0], slot[2], slot[18]) = (1, 5, 6);
}

/// A key in some slot, whether it may hold one or not, or one that another session has.
fn key(random: &mut Random, network: &Network, bytes: &mut [u8]) {
    let service = random.below(network.services.len());
    if network.services[service].starter.is_some() && random.one_in(2) {
        let free = (1..SESSIONS).find(|&session| !held::is_live(bytes, service, session));
        if let Some(session) = free.filter(|_| held::live_keys(bytes, service).len() < 2) {
            lie_down(&mut bytes[slot(service, session)..]);
        }
        if let [(_, key), .., (last, _)] = held::live_keys(bytes, service)[..] {
            return held::put(bytes, service, last, key);
        }
    }
    let service = if random.one_in(4) { random.below(4) } else { service };
    let session = if random.one_in(2) { 0 } else { random.below(SESSIONS) };
    let key = if random.one_in(2) { 1 << (8 * random.below(4)) } else { keys::some(random) };
    held::put(bytes, service, session, key);
}

fn tree(random: &mut Random, slot: &mut [u8]) {
    let length = usize::from(u16::from_le_bytes([slot[2], slot[3]])).clamp(5, 1_013);
    match random.below(5) {
        0 => slot[2] = slot[2].wrapping_add(*random.pick(&[1, 255]).expect("two")),
        1 => slot[TREE + random.below(length)] ^= 1 << random.below(8),
        2 => slot[3] = random.byte(),
        3 => slot[TREE + random.between(length, 1_023)] = 1,
        _ => {
            // 49 nodes, or 7 levels, below the root.
            let mut tree = Tree::void(0);
            if random.one_in(2) {
                (1..=49).for_each(|id| tree.assign(&[id], &second::Value::Void));
            } else {
                tree.assign(&[3; 7], &second::Value::Void);
            }
            let bytes = tree.bytes();
            slot[TREE..ENTRIES].fill(0);
            slot[TREE..TREE + bytes.len()].copy_from_slice(&bytes);
            slot[2..4].copy_from_slice(&(bytes.len() as u16).to_le_bytes());
        }
    }
}

/// A broken string in some session's tree; where there is none, at a root that nobody reads.
fn tree_string(random: &mut Random, state: &State, (service, number): (usize, usize), bytes: &mut [u8]) {
    if in_trees(bytes).is_empty() {
        let mut state = state.clone();
        let Some(session) = state.live_mut(service, number).filter(|session| session.tree.nodes() <= 48) else {
            return;
        };
        session.tree.assign(&[60_000], &second::Value::String(well_formed(random)));
        encode(&state, bytes);
    }
    let strings = in_trees(bytes);
    break_one(random, bytes, &strings);
}

/// A byte in some entry, or an entry after an unused one.
fn entry(random: &mut Random, queue: &mut [u8]) {
    let entry = random.below(QUEUE);
    let reach = if random.one_in(2) { 24 } else { ENTRY };
    let at = ENTRY * entry + random.below(reach);
    queue[at] = random.between(0, 65) as u8;
    if random.one_in(3) {
        queue.copy_within(0..ENTRY, 2 * ENTRY);
        queue[ENTRY..2 * ENTRY].fill(0);
    }
}

/// The state with more messages in a session's queue; the operation of the first.
fn write_filled(
    random: &mut Random,
    network: &Network,
    state: &State,
    (service, number): (usize, usize),
    bytes: &mut [u8],
) -> Option<usize> {
    let mut state = state.clone();
    let session = state.live_mut(service, number)?;
    fill(random, network, service, session);
    let first = session.queue.first()?.operation;
    encode(&state, bytes);
    Some(first)
}

/// A broken string in some session's queue.
fn queued_string(random: &mut Random, network: &Network, state: &State, at: (usize, usize), bytes: &mut [u8]) {
    write_filled(random, network, state, at, bytes);
    let strings = in_queues(bytes);
    break_one(random, bytes, &strings);
}

/// A right queue with one field of an entry wrong.
fn queued(random: &mut Random, network: &Network, state: &State, at: (usize, usize), bytes: &mut [u8]) {
    let Some(first) = write_filled(random, network, state, at, bytes) else { return };
    let start = slot(at.0, at.1) + ENTRIES;
    let (at, byte) = match random.below(6) {
        0 => (0, other_operation(random, network, first) as u8 + 1),
        1 => (1, random.between(0, 3) as u8),
        2 => (2, random.byte()),
        3 => (4 + random.below(4), random.byte()),
        4 => (MESSAGE + random.below(12), random.byte()),
        _ => (random.between(300, ENTRY - 1), 1),
    };
    bytes[start + at] = byte;
}

/// Another operation of the same kind, of any service and direction; or one past the last.
fn other_operation(random: &mut Random, network: &Network, operation: usize) -> usize {
    let two_way = |row: usize| network.operations[row].reply.is_some();
    let rows = 0..network.operations.len();
    let alike: Vec<usize> = rows.filter(|&row| row != operation && two_way(row) == two_way(operation)).collect();
    match random.pick(&alike) {
        Some(&row) if !random.one_in(4) => row,
        _ => network.operations.len() + random.below(2),
    }
}

/// Any progress of any row, of no row too.
fn row(random: &mut Random, network: &Network, rows: &mut [u8]) {
    let count = network.behaviours.len();
    let row = if random.one_in(8) { random.below(256) } else { random.below(count.max(1)) };
    let part = if random.one_in(2) { 0 } else { random.below(9) as u8 };
    rows[ROW * row..ROW * row + 2].copy_from_slice(&[random.below(7) as u8, part]);
    if random.one_in(4) {
        rows[ROW * row + random.between(2, 5)] = random.below(4) as u8;
    }
}

/// A part that the row may not have.
fn part(random: &mut Random, network: &Network, own: &[usize], rows: &mut [u8]) {
    let parts_of = |row: usize| match &network.behaviours[row] {
        Behaviour::If { .. } => 2,
        Behaviour::While { .. } => 1,
        Behaviour::Choice { branches } => branches.len(),
        _ => 0,
    };
    let compounds: Vec<usize> = own.iter().copied().filter(|&row| parts_of(row) > 0).collect();
    if let Some(&row) = random.pick(&compounds) {
        let past = parts_of(row) + random.below(2);
        rows[ROW * row..ROW * row + 2].copy_from_slice(&[3, past as u8]);
    }
}

/// A received row whose destination is at the end of a range or just past it.
fn destination(random: &mut Random, network: &Network, own: &[usize], rows: &mut [u8]) {
    let received = |row: &usize| matches!(network.behaviours[*row], Behaviour::RequestResponse { .. });
    let answers: Vec<usize> = own.iter().copied().filter(received).collect();
    let Some(&row) = random.pick(&answers) else { return };
    let mut numbers = [network.services.len() - 1, SESSIONS - 1, network.behaviours.len() - 1];
    if !random.one_in(4) {
        numbers[random.below(3)] += 1;
    }
    let [low, high] = (numbers[2] as u16).to_le_bytes();
    let bytes = [5, 0, numbers[0] as u8, numbers[1] as u8, low, high];
    rows[ROW * row..ROW * row + ROW].copy_from_slice(&bytes);
}

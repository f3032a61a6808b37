//! Scripts: moves and states in the lines that `bin/play` reads and prints.

use std::ops::Range;

use second::Network;
use stepper::decode::decode;
use stepper::encode::{encode, slot, ENTRIES, ENTRY, KEY, KEY_END, MESSAGE, ROW, ROWS, ROWS_END, SLOT, STATE, TREE};
use stepper::state::{Progress, SESSIONS};
use stepper::{Move, State};

use crate::{hex, Side, UNTOUCHED};

/// Plays a script by one side and gives its lines with the results. A line is a move, perhaps with a result, which
/// is passed over; `state`, after which the live sessions follow, those that stand there already being passed over;
/// or a line of such a list elsewhere, which together with those around it gives the bytes of the state for the next
/// move. Comments and blank lines stay. Before the first move the state is the fresh one: clients live, all else free.
pub fn play(side: &dyn Side, file: &[u8], script: &str) -> Result<Vec<String>, String> {
    let network = Network::read(file).map_err(|refusal| refusal.to_string())?;
    let mut state = vec![0; STATE];
    encode(&State::fresh(&network), &mut state);
    let mut given = false;
    let mut shown = false;
    let mut played = Vec::new();
    for line in script.lines() {
        let wrong = |what: &str| format!("{line}: {what}");
        let is_of_state = line.starts_with(|first: char| first.is_ascii_digit());
        shown &= is_of_state;
        if shown {
            continue;
        }
        if is_of_state && !given {
            state.fill(0);
        }
        given = is_of_state;
        if is_of_state {
            read_session(&mut state, line).ok_or_else(|| wrong("no line of a state"))?;
            played.push(line.into());
        } else if line.is_empty() || line.starts_with('#') {
            played.push(line.into());
        } else if line == "state" {
            shown = true;
            played.push(line.into());
            played.extend(show(&decode(&network, &state).map_err(|misshape| wrong(&format!("{misshape:?}")))?));
        } else {
            let (words, _) = line.split_once(':').unwrap_or((line, ""));
            let (named, outside) = read_move(words).ok_or_else(|| wrong("no move"))?;
            let result = made(side, file, &mut state, &named, &outside).map_err(|what| wrong(&what))?;
            played.push(format!("{words}: {result}"));
        }
    }
    Ok(played)
}

/// A move's result: its number and, where bytes went out, their count and the bytes.
fn made(side: &dyn Side, file: &[u8], state: &mut [u8], named: &Move, outside: &[u8]) -> Result<String, String> {
    let (before, mut out) = (state.to_vec(), [UNTOUCHED; 512]);
    let answer = side.step(file, state, &mut out, named, outside);
    let (written, rest) = out.split_at(answer.bytes);
    let kept = answer.number == 0 || (state == before && written.is_empty());
    if !kept || rest.iter().any(|&byte| byte != UNTOUCHED) || (answer.number >= 14 && answer.place != 0) {
        return Err(format!("{}: {answer:?}, with a place or a buffer that is not as it should be", side.name()));
    }
    Ok(match written {
        [] => answer.number.to_string(),
        _ => format!("{} {} {}", answer.number, written.len(), hex(written)),
    })
}

fn bytes(digits: &str) -> Option<Vec<u8>> {
    let digits: Option<Vec<u8>> = digits.chars().map(|digit| digit.to_digit(16).map(|digit| digit as u8)).collect();
    let digits = digits.filter(|digits| digits.len() % 2 == 0)?;
    Some(digits.chunks(2).map(|pair| 16 * pair[0] + pair[1]).collect())
}

fn read_move(line: &str) -> Option<(Move, Vec<u8>)> {
    let words: Vec<&str> = line.split_whitespace().collect();
    let (&kind, words) = words.split_first()?;
    let count = match kind {
        "close" => 2,
        "send" | "outer-message" => 4,
        _ => 3,
    };
    let (numbers, message) = words.split_at_checked(count)?;
    let message = bytes(&message.concat())?;
    let number = |index: usize| numbers[index].parse::<u16>().ok();
    let (service, session) = (number(0)?, number(1)?);
    let named = match kind {
        "local" => Move::Local { service, session, row: number(2)? },
        "receive" => Move::Receive { service, session, row: number(2)? },
        "send" => Move::Send { service, session, row: number(2)?, target: number(3)? },
        "reply" => Move::Reply { service, session, row: number(2)? },
        "outer-message" => {
            Move::OuterMessage { service, id: session, target: number(2)?, number: numbers[3].parse().ok()? }
        }
        "outer-reply" => Move::OuterReply { service, session, row: number(2)? },
        "close" => Move::Close { service, session },
        _ => return None,
    };
    Some((named, message))
}

/// The live sessions: key, tree, queue and rows that are not undone.
fn show(state: &State) -> Vec<String> {
    let mut lines = Vec::new();
    for (service, sessions) in state.services.iter().enumerate() {
        for (number, session) in sessions.iter().enumerate() {
            let Some(session) = session else { continue };
            let here = format!("{service} {number}");
            lines.extend(session.key.map(|key| format!("{here} key {key}")));
            lines.push(format!("{here} tree {}", hex(&session.tree.bytes())));
            for queued in &session.queue {
                lines.push(format!("{here} queued {} {}", queued.operation, hex(&queued.message.bytes())));
            }
            for (row, progress) in session.progress.iter().enumerate() {
                let progress = match progress {
                    Progress::Undone => continue,
                    Progress::Done => "done".to_string(),
                    Progress::Waiting => "waits".to_string(),
                    Progress::Taken(part) => format!("part {part}"),
                    Progress::Received(_) => "received".to_string(),
                };
                lines.push(format!("{here} row {row} {progress}"));
            }
        }
    }
    lines
}

/// A line of `show`, into a state's bytes (docs/STATE.md): a session's tree first, its key wherever it stands. Keys, trees
/// and messages are written as they are, so that the bytes may stand for no state (14): a key without a tree is one in a
/// free slot. Whom a row or message answers is not in such a line.
fn read_session(state: &mut [u8], line: &str) -> Option<()> {
    let words: Vec<&str> = line.split_whitespace().collect();
    let (numbers, words) = words.split_at_checked(2)?;
    let (service, session) = (numbers[0].parse::<usize>().ok()?, numbers[1].parse::<usize>().ok()?);
    let start = (service < 4 && session < SESSIONS).then(|| slot(service, session))?;
    let slot = &mut state[start..start + SLOT];
    match words {
        ["tree", digits] => {
            slot[0] = 1;
            return put(slot, 2, TREE..ENTRIES, &bytes(digits)?);
        }
        ["key", number] => {
            slot[KEY..KEY_END].copy_from_slice(&number.parse::<i32>().ok()?.to_le_bytes());
            return Some(());
        }
        _ => {}
    }
    if slot[0] == 0 {
        return None;
    }
    match words {
        ["queued", operation, digits] => {
            let entry = (ENTRIES..ROWS).step_by(ENTRY).find(|&entry| slot[entry] == 0)?;
            slot[entry] = operation.parse::<u8>().ok()?.checked_add(1)?;
            put(slot, entry + 2, entry + MESSAGE..entry + ENTRY, &bytes(digits)?)
        }
        ["row", row, progress @ ..] => {
            let at = Some(ROWS + ROW * row.parse::<usize>().ok()?).filter(|&at| at < ROWS_END)?;
            (slot[at], slot[at + 1]) = match progress {
                ["done"] => (1, 0),
                ["waits"] => (2, 0),
                ["part", part] => (3, part.parse().ok()?),
                _ => return None,
            };
            Some(())
        }
        _ => None,
    }
}

/// Writes the bytes of a tree or message where there is room for them, and their length.
fn put(slot: &mut [u8], length: usize, room: Range<usize>, bytes: &[u8]) -> Option<()> {
    slot[room].get_mut(..bytes.len())?.copy_from_slice(bytes);
    slot[length..length + 2].copy_from_slice(&(bytes.len() as u16).to_le_bytes());
    Some(())
}

#[cfg(test)]
mod tests {
    use super::*;
    use crate::itself::itself;
    use crate::Second;
    use std::path::PathBuf;

    fn folder(name: &str) -> PathBuf {
        PathBuf::from(env!("CARGO_MANIFEST_DIR")).join("../..").join(name)
    }

    #[test]
    fn each_example_is_played_as_stored() {
        let mut scripts = 0;
        for entry in std::fs::read_dir(folder("examples")).expect("examples/") {
            let path = entry.expect("an entry").path();
            if path.extension().is_none_or(|found| found != "play") {
                continue;
            }
            let file = std::fs::read(path.with_extension("bin")).expect("a file");
            let script = std::fs::read_to_string(&path).expect("a script");
            let expected = std::fs::read_to_string(path.with_extension("played")).expect("what comes out");
            for side in [&Second as &dyn Side, &itself()] {
                let played = play(side, &file, &script).unwrap_or_else(|error| panic!("{error}"));
                let shown: Vec<_> = played.iter().filter(|line| !line.is_empty() && !line.starts_with('#')).collect();
                assert_eq!(shown, expected.lines().collect::<Vec<_>>(), "{}", path.display());
            }
            scripts += 1;
        }
        assert!(scripts > 1, "{scripts}");
    }

    #[test]
    fn lines_of_a_state_are_read_as_they_are_shown() {
        let file = std::fs::read(folder("examples/scale.bin")).expect("a file");
        let lines = [
            "0 0 tree 00000601001400060100020001000401000000",
            "0 0 row 1 done",
            "0 0 row 3 waits",
            "1 1 tree 0000060000",
            "1 1 queued 4 000006010001000200080000000000000c40",
            "1 1 row 7 part 0",
        ];
        let script = lines.join("\n") + "\nstate\n";
        let played = play(&Second, &file, &script).unwrap_or_else(|error| panic!("{error}"));
        assert_eq!(played, [&lines[..], &["state"], &lines[..]].concat());
        for wrong in [
            "0 0 row 1 done",
            "0 0 tree 000",
            "0 4 tree 0000060000",
            "4 0 tree 0000060000",
            "local 0 0",
            "lift 0 0 1",
            "local 0 0 x",
        ] {
            assert!(play(&Second, &file, wrong).is_err(), "{wrong}");
        }
        let long = format!("0 0 tree {}", "00".repeat(1_025));
        assert!(play(&Second, &file, &long).is_err() && play(&Second, &file, &long[..long.len() - 2]).is_ok());
        assert!(play(&Second, &file, "0 0 tree 0000060000\n0 0 row 256 done").is_err());
    }

    /// The key of a session stands before its tree, signed.
    #[test]
    fn the_keys_of_a_state_are_read_as_they_are_shown() {
        let text = "service 5 { client nil } service 6 keyed by 9 { input 3: void { 9: int } client nil \
                    starter choice { on receive 3 into 5 then nil } }";
        let file = net::assemble(text).expect("a text").file;
        let lines = [
            "0 0 tree 0000060000",
            "1 0 tree 0000060000",
            "1 1 key 0",
            "1 1 tree 0000060000",
            "1 3 key -2147483648",
            "1 3 tree 0000060000",
        ];
        let played = |lines: &[&str], last: &str| play(&Second, &file, &format!("{}\n{last}\n", lines.join("\n")));
        let shown = played(&lines, "state").expect("a state");
        assert_eq!(shown, [&lines[..], &["state"], &lines[..]].concat());
        for wrong in ["1 2 key -1", "1 0 key 1", "0 0 key 1", "0 1 key 1", "3 3 key 1", "1 1 key -2147483648"] {
            let played = played(&[&lines[..], &[wrong]].concat(), "close 9 9").expect("a script");
            assert_eq!(played.last().map(String::as_str), Some("close 9 9: 14"), "{wrong}");
        }
        for wrong in ["1 1 key 2147483648", "1 1 key", "1 1 key x", "4 1 key 1"] {
            assert!(played(&[wrong], "state").is_err(), "{wrong}");
        }
    }

    /// Lines that give no state are refused with 14; there is none to show.
    #[test]
    fn lines_may_give_bytes_that_stand_for_no_state() {
        let file = std::fs::read(folder("examples/scale.bin")).expect("a file");
        for lines in [
            "0 0 tree 00",
            "1 1 tree 0000060000\n1 1 queued 4 ff",
            // A destination is missing: the operation is two-way.
            "1 1 tree 0000060000\n1 1 queued 3 0000060000",
            "0 0 tree 0000060000\n0 0 row 255 done",
        ] {
            let played = play(&Second, &file, &format!("{lines}\nclose 9 9")).unwrap_or_else(|error| panic!("{error}"));
            assert_eq!(played.last().map(String::as_str), Some("close 9 9: 14"), "{lines}");
            assert!(play(&Second, &file, &format!("{lines}\nstate")).is_err(), "{lines}");
        }
    }
}

//! The program `net` as it is run: statuses, what it writes and what it leaves alone.

use std::ffi::{OsStr, OsString};
use std::fs;
use std::io::Write;
use std::os::unix::ffi::OsStringExt;
use std::os::unix::fs::{symlink, PermissionsExt};
use std::path::{Path, PathBuf};
use std::process::{Command, Stdio};

/// A folder of the test's own, empty.
fn folder(name: &str) -> PathBuf {
    let folder = Path::new(env!("CARGO_TARGET_TMPDIR")).join(name);
    let _ = fs::remove_dir_all(&folder);
    fs::create_dir(&folder).expect("a folder");
    folder
}

fn examples() -> PathBuf {
    Path::new(env!("CARGO_MANIFEST_DIR")).join("../../examples")
}

/// Status, standard output and standard error.
type Answer = (i32, Vec<u8>, String);

fn run(folder: &Path, words: &[impl AsRef<OsStr>], input: &[u8], output: Stdio) -> Answer {
    let mut command = Command::new(env!("CARGO_BIN_EXE_net"));
    command.current_dir(folder).args(words).stdin(Stdio::piped()).stdout(output).stderr(Stdio::piped());
    let mut child = command.spawn().expect("net starts");
    // A program that does not read its input may end before it is written.
    let _ = child.stdin.take().expect("a pipe").write_all(input);
    let ended = child.wait_with_output().expect("net ends");
    let status = ended.status.code().expect("no signal ends net");
    (status, ended.stdout, String::from_utf8(ended.stderr).expect("UTF-8"))
}

fn net(folder: &Path, words: &[&str]) -> Answer {
    run(folder, words, b"", Stdio::piped())
}

/// Runs `net`, which ends with this status and says something with this part.
fn says(folder: &Path, words: &[&str], status: i32, part: &str) {
    let (found, _, said) = net(folder, words);
    assert_eq!(found, status, "{words:?}: {said}");
    assert!(said.contains(part), "{words:?}: {said}");
}

const CASE_D: &str = "service 1 { client set 5.7 = int 12 }\n";
const NO_PATH: &str = "service 1 {\n  client set 5 = 7\n}\n";
const TWO_LOCATIONS: &str = "service 1 {}\nservice 1 {}\n";
const NINE_LEVELS: &str = "service 1 {\nclient set 5 = -(-(-(-(-(-(-(-int 1))))))) }";

#[test]
fn usage_is_an_error_and_help_is_not() {
    let folder = folder("usage");
    for words in [&[][..], &["assemble"], &["assemble", "a"], &["check", "a", "b"], &["build", "a"], &["--", "--help"]]
    {
        says(&folder, words, 2, "usage: net assemble TEXT FILE");
    }
    says(&folder, &["check", "--quick", "a"], 2, "unknown option '--quick'");
    says(&folder, &["-x"], 2, "unknown option '-x'");
    let (status, out, _) = net(&folder, &["--help"]);
    assert!(status == 0 && out.starts_with(b"usage: net assemble TEXT FILE"));
    let (status, out, _) = net(&folder, &["check", "--version"]);
    assert!(status == 0 && out == concat!("net ", env!("CARGO_PKG_VERSION"), "\n").as_bytes());
}

#[test]
fn unreadable_input_is_an_error() {
    let folder = folder("unreadable");
    for words in [&["assemble", "none", "out"][..], &["disassemble", "none"], &["check", "none"], &["rows", "none"]] {
        says(&folder, words, 2, "none: No such file");
    }
    for words in [&["assemble", ".", "out"][..], &["disassemble", "."], &["check", "."], &["rows", "."]] {
        says(&folder, words, 2, ".: Is a directory");
    }
    assert!(!folder.join("out").exists());
}

#[test]
fn bytes_that_are_no_text_are_errors() {
    let folder = folder("bytes");
    fs::write(folder.join("mark"), [b"\xef\xbb\xbf", CASE_D.as_bytes()].concat()).expect("a file");
    fs::write(folder.join("latin"), b"service 1 {\n// h\xe4ll\n}\n").expect("a file");
    fs::write(folder.join("wide"), b"\xff\xfes\0e\0r\0").expect("a file");
    for command in [&["check"][..], &["assemble"]] {
        let out = if command[0] == "assemble" { &["out"][..] } else { &[] };
        for (name, part) in [
            ("mark", "mark: line 1, column 1: the text starts with a byte order mark"),
            ("latin", "latin: line 2, column 5: bytes that are no UTF-8"),
            ("wide", "wide: line 1, column 1: bytes that are no UTF-8"),
        ] {
            says(&folder, &[command, &[name], out].concat(), 2, part);
        }
    }
    let endless = fs::File::open("/dev/zero").expect("/dev/zero");
    let mut child = Command::new(env!("CARGO_BIN_EXE_net"));
    let ended = child.args(["check", "-"]).stdin(endless).output().expect("net ends");
    assert_eq!(ended.status.code(), Some(2));
    assert!(!folder.join("out").exists());
}

#[test]
fn refusals_go_to_standard_output_with_their_line() {
    let folder = folder("refusals");
    for (text, number, line) in [
        (NO_PATH, "refused 7 0\n", "line 2, column 10: the path that is read is not there\n"),
        (TWO_LOCATIONS, "refused 4 8\n", "line 2, column 1: another service has this location\n"),
        (NINE_LEVELS, "refused 5 72\n", "line 2, column 16: the expression has more than 8 levels\n"),
    ] {
        fs::write(folder.join("a.net"), text).expect("a file");
        let (status, out, said) = net(&folder, &["check", "a.net"]);
        assert_eq!((status, said.as_str()), (1, ""));
        assert_eq!(String::from_utf8_lossy(&out), format!("{number}a.net: {line}"));
    }
    let (status, out, _) = run(&folder, &["check", "-"], CASE_D.as_bytes(), Stdio::piped());
    assert!(status == 0 && out == b"accepted\n0 C 5 ! void\n0 C 5.7 ! int\n");
}

/// A file is made of a text that 23 refuses; a note comes after what is accepted, and the status tells of none.
#[test]
fn keys_are_told_after_the_verdict() {
    let folder = folder("keys");
    let text = "service 3 keyed by 7 {\n  input 5: void { 7: int }\n  client receive 5 into 6\n}\n";
    fs::write(folder.join("a.net"), text).expect("a file");
    let (status, out, said) = net(&folder, &["check", "a.net"]);
    let told = "accepted\n0 C 6 ! void\n0 C 6.7 ! int\na.net: line 3, column 10: note: service 3 is keyed: \
                nothing is ever queued at its client, so this input waits for good\n";
    assert_eq!((status, String::from_utf8_lossy(&out).as_ref(), said.as_str()), (0, told, ""));
    fs::write(folder.join("a.net"), text.replace("7: int", "7: long")).expect("a file");
    let (status, out, said) = net(&folder, &["check", "a.net"]);
    let told = "refused 23 0\na.net: line 2, column 3: service 3 is keyed by 7, but the request type of its input 5 \
                has 7 as a long, not an int\n";
    assert_eq!((status, String::from_utf8_lossy(&out).as_ref(), said.as_str()), (1, told, ""));
    says(&folder, &["assemble", "a.net", "a.bin"], 0, "");
    let (status, out, _) = net(&folder, &["rows", "a.bin"]);
    assert!(status == 0 && out.starts_with(b"service 0: location 3, starter none, client 0, keyed by 7\n"));
}

#[test]
fn what_is_refused_with_2_to_5_is_not_made() {
    let folder = folder("not_made");
    fs::write(folder.join("a.net"), TWO_LOCATIONS).expect("a file");
    fs::write(folder.join("out"), "before").expect("a file");
    says(&folder, &["assemble", "a.net", "out"], 1, "a.net: line 2, column 1: refused 4 8: another service");
    assert_eq!(fs::read(folder.join("out")).expect("a file"), b"before");
    for command in ["disassemble", "rows"] {
        says(&folder, &[command, "out"], 1, "out: refused 2 0: the file's length");
        assert_eq!(run(&folder, &[command, "-"], &[0; 28], Stdio::piped()).0, 1);
    }
    // 6 to 13 and 23 are the checker's.
    fs::write(folder.join("a.net"), NO_PATH).expect("a file");
    says(&folder, &["assemble", "a.net", "out"], 0, "");
}

/// A string constant of broken text is the checker's too.
#[test]
fn broken_text_is_assembled_refused_by_its_line_and_disassembled() {
    let folder = folder("broken_text");
    let text = "service 1 {\n    client set 5 = \"荷\\xe9\\x87\"\n}\n";
    fs::write(folder.join("a.net"), text).expect("a file");
    says(&folder, &["assemble", "a.net", "out"], 0, "");
    let (status, out, said) = net(&folder, &["check", "a.net"]);
    assert_eq!((status, said.as_str()), (1, ""));
    let told = "refused 4 10\na.net: line 2, column 20: the string constant is not well-formed UTF-8\n";
    assert_eq!(String::from_utf8_lossy(&out), told);
    let (status, out, said) = net(&folder, &["disassemble", "out"]);
    assert_eq!((status, String::from_utf8_lossy(&out).as_ref(), said.as_str()), (0, text, ""));
    says(&folder, &["rows", "out"], 1, "out: refused 4 10: the string constant");
    // With another fault of 2 to 5 no file is made.
    fs::write(folder.join("a.net"), [text, TWO_LOCATIONS].concat()).expect("a file");
    says(&folder, &["assemble", "a.net", "out"], 1, "a.net: line 2, column 20: refused 4 10: the string constant");
}

#[test]
fn the_input_is_never_written_over() {
    let folder = folder("over");
    fs::write(folder.join("a.net"), CASE_D).expect("a file");
    fs::hard_link(folder.join("a.net"), folder.join("hard")).expect("a link");
    symlink("a.net", folder.join("soft")).expect("a link");
    symlink(".", folder.join("here")).expect("a link");
    for out in ["a.net", "./a.net", "hard", "soft", "here/soft"] {
        says(&folder, &["assemble", "a.net", out], 2, "this is the input, a.net");
        says(&folder, &["assemble", out, "a.net"], 2, "this is the input");
    }
    let open = || fs::OpenOptions::new().append(true).open(folder.join("hard")).expect("a file");
    for words in [&["assemble", "a.net", "-"][..], &["check", "a.net"]] {
        assert_eq!(run(&folder, words, b"", open().into()).0, 2, "{words:?}");
    }
    let mut command = Command::new(env!("CARGO_BIN_EXE_net"));
    let input = fs::File::open(folder.join("a.net")).expect("a file");
    let ended = command.current_dir(&folder).args(["assemble", "-", "soft"]).stdin(input).output().expect("net ends");
    assert_eq!(ended.status.code(), Some(2));
    assert_eq!(fs::read(folder.join("a.net")).expect("a file"), CASE_D.as_bytes());
    assert_eq!(fs::read_dir(&folder).expect("a folder").count(), 4);
    // `rt ci` takes no link in the checkout, where this folder is.
    fs::remove_dir_all(&folder).expect("a folder");
}

#[test]
fn a_file_is_written_whole_where_its_name_leads() {
    let folder = folder("whole");
    let expected = fs::read(examples().join("assign.bin")).expect("a file");
    let text = examples().join("assign.net");
    let text = text.to_str().expect("UTF-8");
    let made = |name: &str| {
        says(&folder, &["assemble", text, name], 0, "");
        assert!(fs::read(folder.join(name)).expect("a file") == expected, "{name}");
    };
    made("new");
    fs::write(folder.join("old"), vec![7; 40_000]).expect("a file");
    fs::set_permissions(folder.join("old"), fs::Permissions::from_mode(0o640)).expect("a mode");
    symlink("old", folder.join("link")).expect("a link");
    made("link");
    assert!(fs::symlink_metadata(folder.join("link")).expect("a link").is_symlink());
    assert_eq!(fs::metadata(folder.join("old")).expect("a file").permissions().mode() & 0o777, 0o640);
    symlink("nowhere", folder.join("loose")).expect("a link");
    says(&folder, &["assemble", text, "loose"], 2, "loose: No such file");
    says(&folder, &["assemble", text, "none/new"], 2, "none/new: No such file");
    says(&folder, &["assemble", text, "."], 2, ".: Is a directory");
    let (status, out, _) = net(&folder, &["assemble", text, "-"]);
    assert!(status == 0 && out == expected);
    let (status, out, _) = run(&folder, &["disassemble", "-"], &expected, Stdio::piped());
    assert!(status == 0 && out == CASE_D.replace(" c", "\n    c").replace(" }", "\n}").as_bytes());
    assert_eq!(fs::read_dir(&folder).expect("a folder").count(), 4);
    // `rt ci` takes no link in the checkout, where this folder is.
    fs::remove_dir_all(&folder).expect("a folder");
}

#[test]
fn a_failed_write_is_an_error() {
    let folder = folder("full");
    fs::write(folder.join("a.net"), CASE_D).expect("a file");
    says(&folder, &["assemble", "a.net", "a.bin"], 0, "");
    let full = || fs::OpenOptions::new().write(true).open("/dev/full").expect("/dev/full");
    for words in [
        &["assemble", "a.net", "-"][..],
        &["disassemble", "a.bin"],
        &["check", "a.net"],
        &["rows", "a.bin"],
        &["--help"],
    ] {
        let (status, _, said) = run(&folder, words, b"", full().into());
        assert_eq!(status, 2, "{words:?}");
        assert!(said.contains("standard output: No space left"), "{words:?}: {said}");
    }
    says(&folder, &["assemble", "a.net", "/dev/full"], 2, "/dev/full: No space left");
    says(&folder, &["assemble", "a.net", "/dev/null"], 0, "");
    assert!(!fs::metadata("/dev/null").expect("/dev/null").is_file());
    // With nowhere for its message either, the status still tells.
    let mut command = Command::new(env!("CARGO_BIN_EXE_net"));
    let ended = command.args(["check", "none"]).stdout(full()).stderr(full()).status().expect("net ends");
    assert_eq!(ended.code(), Some(2));
}

#[test]
fn file_names_are_any_bytes() {
    let folder = folder("names");
    let [text, file] = [b"h\xe4ll.net".to_vec(), b"h\xe4ll.bin".to_vec()].map(OsString::from_vec);
    fs::write(folder.join(&text), CASE_D).expect("a file");
    let run = |words: &[&OsStr]| run(&folder, words, b"", Stdio::piped());
    assert_eq!(run(&["assemble".as_ref(), &text, &file]).0, 0);
    assert!(folder.join(&file).exists());
    assert_eq!(run(&["rows".as_ref(), &file]).0, 0);
    fs::write(folder.join("-"), CASE_D).expect("a file");
    fs::write(folder.join("--check"), CASE_D).expect("a file");
    assert_eq!(run(&["check".as_ref(), "./-".as_ref()]).0, 0);
    assert_eq!(run(&["check".as_ref(), "--".as_ref(), "--check".as_ref()]).0, 0);
    assert_eq!(run(&[OsString::from_vec(b"\xff".to_vec()).as_ref()]).0, 2);
}

/// A types file stands beside the text that names it; for standard input it is found from the working folder.
#[test]
fn a_types_file_is_found_beside_its_text() {
    let folder = folder("beside");
    fs::create_dir(folder.join("in")).expect("a folder");
    for name in ["lift.net", "lift.types"] {
        fs::copy(examples().join(name), folder.join("in").join(name)).expect("a copy");
    }
    let expected = fs::read(examples().join("lift.bin")).expect("a file");
    says(&folder, &["assemble", "in/lift.net", "lift.bin"], 0, "");
    assert!(fs::read(folder.join("lift.bin")).expect("a file") == expected);
    assert_eq!(net(&folder, &["check", "in/lift.net"]).1, fs::read(examples().join("lift.txt")).expect("a text"));
    let text = fs::read(folder.join("in/lift.net")).expect("a text");
    let (status, out, _) = run(&folder.join("in"), &["assemble", "-", "-"], &text, Stdio::piped());
    assert!(status == 0 && out == expected);
    let (status, _, said) = run(&folder, &["assemble", "-", "-"], &text, Stdio::piped());
    assert!(status == 2 && said.contains("standard input: line 5, column 7: lift.types: No such file"), "{said}");
    // A file of this name is no standard input.
    fs::write(folder.join("dash.net"), "types \"-\" service 1 {}").expect("a file");
    says(&folder, &["check", "dash.net"], 2, "dash.net: line 1, column 7: -: No such file");
    let listed = run(&folder, &["rows", "lift.bin"], b"", Stdio::piped()).1;
    assert!(listed.starts_with(b"service 0: location 1, starter 0, client none\n"));
}

#[test]
fn a_refused_types_file_is_told_with_its_line() {
    let folder = folder("refused_types");
    fs::write(folder.join("a.net"), "types \"a.types\"\nservice 1 {}\n").expect("a file");
    fs::write(folder.join("a.types"), "type A : int\ntype B : int { .a : C }\n").expect("a file");
    let (status, out, said) = net(&folder, &["check", "a.net"]);
    let expected = "refused 21 33\na.types: line 2, column 21: no type of this name is declared before\n";
    assert_eq!((status, String::from_utf8_lossy(&out).as_ref(), said.as_str()), (1, expected, ""));
    let part = "a.types: line 2, column 21: refused 21 33: no type of this name is declared before\n";
    says(&folder, &["assemble", "a.net", "a.bin"], 1, part);
    assert!(!folder.join("a.bin").exists());
    fs::write(folder.join("a.types"), "type A : int").expect("a file");
    says(&folder, &["assemble", "a.net", "a.types"], 2, "this is the input, a.types");
    assert_eq!(fs::read(folder.join("a.types")).expect("a file"), b"type A : int");
    fs::write(folder.join("a.types"), vec![b' '; 9000]).expect("a file");
    says(&folder, &["assemble", "a.net", "a.bin"], 1, "a.types: line 1, column 8193: refused 2 0: the text has more");
}

/// Texts that go on and on, each far past what a file can hold.
#[test]
fn endless_texts_are_errors_with_line_and_column() {
    let folder = folder("endless");
    let many = 200_000;
    let client = |text: String| format!("service 1 {{\nclient {text}");
    let value = |text: String| client(format!("set 5 = {text}"));
    let types: String = (1..100).map(|k| format!("type A{k} = void {{ 1: A{}, 2: A{} }}\n", k - 1, k - 1)).collect();
    for (text, part) in [
        (client("{".repeat(many)), "line 2, column 608: more than 600 levels"),
        (client("while true do ".repeat(many)), "line 2, column 3598: there are at most 256 E rows"),
        (client("while $x do {".repeat(many)), "line 2, column 3908: more than 600 levels"),
        (client("choice { on receive 1 into 1 then ".repeat(many)), "there are at most 256 B rows"),
        (client("parallel { ".repeat(many)), "more than 600 levels"),
        (client("parallel ".to_string() + &"{} ".repeat(many)), "there are at most 256 B rows"),
        (client("{ ".to_string() + &"nil; ".repeat(many)), "there are at most 256 B rows"),
        (value("(".repeat(many)), "more than 600 levels"),
        (value("-".repeat(many)), "more than 600 levels"),
        (value("not ".repeat(many)), "more than 600 levels"),
        (value("$x + ".repeat(many)), "there are at most 256 E rows"),
        (value("true and ".repeat(many)), "there are at most 256 E rows"),
        (format!("type A = {}", "void { 1: ".repeat(many)), "line 1, column 2570: there are at most 256 T rows"),
        (format!("type A0 = int\n{types}"), "there are at most 256 T rows"),
    ] {
        fs::write(folder.join("a.net"), text).expect("a file");
        says(&folder, &["check", "a.net"], 2, part);
    }
}

//! The command as it is called, with the proved library behind it: examples, options, files, refusals.

use model::handle::Handle;
use model::hexadecimal;
use std::fs::{self, File};
use std::io;
use std::path::Path;
use std::process::{Command, Output, Stdio};

const USAGE: &str = "usage: registershow [--handles] [--bytes FILE] REGISTER-FILE";
const OFFICE: &str = "examples/register/office.register";

fn root() -> &'static Path {
    Path::new(concat!(env!("CARGO_MANIFEST_DIR"), "/../.."))
}

/// The command in the repository's folder, so that messages name files as the README does.
fn command(arguments: &[&str]) -> Command {
    let mut command = Command::new(env!("CARGO_BIN_EXE_registershow"));
    command.current_dir(root()).args(arguments);
    command
}

/// Status, standard output and standard error.
fn run(arguments: &[&str]) -> (i32, String, String) {
    let Output { status, stdout, stderr } = command(arguments).output().unwrap();
    let text = |bytes| String::from_utf8(bytes).unwrap();
    (status.code().unwrap(), text(stdout), text(stderr))
}

fn told(status: i32, message: &str) -> (i32, String, String) {
    (status, String::new(), format!("registershow: {message}\n"))
}

fn example(name: &str) -> String {
    fs::read_to_string(root().join("examples/register").join(name)).unwrap()
}

/// A file of this test's own.
fn own_file(name: &str, text: &str) -> String {
    let path = Path::new(env!("CARGO_TARGET_TMPDIR")).join(name);
    fs::write(&path, text).unwrap();
    path.to_str().unwrap().to_string()
}

fn handle(digits: &str) -> Handle {
    Handle::from_bytes(&hexadecimal::decode(digits).unwrap()).unwrap()
}

#[test]
fn the_example_is_shown() {
    let bytes = own_file("office.bytes", "");
    let shown = (0, example("office.out"), String::new());
    assert_eq!(run(&[OFFICE]), shown);
    assert_eq!(run(&["--bytes", &bytes, OFFICE]), shown);
    let wanted = fs::read(root().join("examples/register/office.bytes")).unwrap();
    assert_eq!(fs::read(bytes).unwrap(), wanted);
}

/// The archive has the maker's own; the reader's is that of the model, a cut for each step of its way.
#[test]
fn handles_are_shown_on_request() {
    let maker = "000002101112131415161718191a1b1c1d1e1fffffffff";
    let page = example("office.out");
    assert!(!page.contains("101112"));
    let (status, shown, _) = run(&[OFFICE, "--handles"]);
    assert_eq!(status, 0);
    let handles = shown.strip_prefix(&page).unwrap();
    let lines: Vec<&str> = handles.trim_start().lines().collect();
    assert_eq!(lines[0], "entry  name       handle");
    assert_eq!(lines[1], format!("    0  maker      {maker}"));
    assert_eq!(lines[9], format!("    8  archive    {maker}"));
    let cut = |handle: Handle, mask: u16| handle.weaken(mask).unwrap();
    let reader = [0x0f, 0x07, 0x06, 0x04].into_iter().fold(handle(maker), cut);
    assert_eq!(lines[11], format!("   10  reader     {}", hexadecimal::encode(&reader.to_bytes())));
    assert_eq!(lines.len(), 12);
}

#[test]
fn refused_examples_are_told() {
    for name in ["ring", "nothing"] {
        let bytes = own_file(&format!("{name}.bytes"), "as it was");
        let text = format!("examples/register/{name}.register");
        let wanted = (1, String::new(), example(&format!("{name}.out")));
        assert_eq!(run(&[&text, "--bytes", &bytes]), wanted);
        assert_eq!(fs::read_to_string(bytes).unwrap(), "as it was");
    }
}

/// The other numbers that a text can come to.
#[test]
fn refusals_have_their_numbers() {
    let refused = |handle: &str, entries: &str, line: usize, what: &str| {
        let text = format!("supplied m {handle}\n{entries}");
        let file = own_file(&format!("refused-{line}-{}", what.len()), &text);
        assert_eq!(run(&[&file]), told(1, &format!("{file}:{line}: {what}")));
    };
    let password = "10".repeat(16);
    let place = "the handle of 'm' is refused with 2 (no such place): its node is above 3 or its local number above 7";
    refused(&format!("000400{password}ffffffff"), "", 1, place);
    refused(&format!("000008{password}ffffffff"), "a from a keeps 0", 1, place);
    let gapped = "the handle of 'm' is refused with 4 (gapped): its selector is gapped";
    refused(&format!("000000{password}ff0fffff"), "", 1, gapped);
    let spent = "entry 2 ('b') is refused with 17 (spent): a handle takes four cuts at most: \
                 b keeps 0, from a keeps all, from m";
    let entries = "a from m keeps all\nb from a keeps 0";
    refused(&format!("000000{password}7f3f1f0f"), entries, 3, spent);
    let empty = "entry 1 ('a') is refused with 21 (empty): no segment would be left: a keeps all, from m";
    refused(&format!("000000{password}00ffffff"), "a from m keeps all", 2, empty);
}

/// A ring of 255 is told by its beginning.
#[test]
fn long_ways_are_cut() {
    let line = |number: usize| format!("a{number} from a{} keeps 0\n", number % 255 + 1);
    let text: String = (1..=255).map(line).collect();
    let (_, _, said) = run(&[&own_file("long", &format!("supplied m 000000{}\n{text}", "ff".repeat(20)))]);
    assert!(said.ends_with(", from a11 keeps 0, from a12 keeps 0, and so on\n"), "{said}");
}

#[test]
fn registers_without_entries() {
    let password = "10".repeat(16);
    let page = |selector: &str| {
        let file = own_file(selector, &format!("supplied m 000307{password}{selector}"));
        run(&[&file])
    };
    let (status, shown, said) = page("14ffffff");
    assert_eq!((status, said.as_str()), (0, ""));
    assert!(shown.starts_with("cluster 7 of node 3\n\nentry  name  opens\n    0  m     . . 2 . 4 . . .\n\n"));
    assert!(shown.ends_with("segment 4: m\nsegment 5: nobody\nsegment 6: nobody\nsegment 7: nobody\n\nm\n"));
    let (status, shown, _) = page("00ffffff");
    assert_eq!(status, 0);
    assert!(shown.contains("    0  m     . . . . . . . .\n"));
}

#[test]
fn help_is_given() {
    for arguments in [&["--help"][..], &["-h"], &["some-file", "--handles", "--help"]] {
        let (status, help, said) = run(arguments);
        assert_eq!((status, said.as_str()), (0, ""));
        assert_eq!(help.lines().next(), Some(USAGE));
        assert!(help.contains("make office REGISTER=REGISTER-FILE"), "{help}");
        assert!(help.contains("Exit status: 0"), "{help}");
    }
}

#[test]
fn wrong_arguments_are_told() {
    for (arguments, what) in [
        (&[][..], "expected 1 file, found 0"),
        (&["a", "b"], "expected 1 file, found 2"),
        (&["--byte", "a"], "there is no option '--byte'"),
        (&["a", "--bytes"], "expected a file after '--bytes'"),
        (&["--bytes", "--handles", "a"], "expected a file after '--bytes'"),
        (&["--bytes", "b", "--bytes", "c", "a"], "'--bytes' stands twice"),
    ] {
        let message = format!("{what}\n{USAGE}\n'registershow --help' says more");
        assert_eq!(run(arguments), told(2, &message));
    }
}

#[test]
fn files_that_cannot_be_read_or_written_are_told() {
    let missing = "No such file or directory (os error 2)";
    assert_eq!(run(&["./-none"]), told(1, &format!("./-none: {missing}")));
    let nowhere = "examples/none/office.bytes";
    assert_eq!(run(&[OFFICE, "--bytes", nowhere]), told(1, &format!("{nowhere}: {missing}")));
    let same = "examples/../examples/register/office.register";
    let over = format!("{same}: this is the register's text");
    assert_eq!(run(&[OFFICE, "--bytes", same]), told(1, &over));
}

#[test]
fn output_that_goes_nowhere_is_told() {
    let said = |output: Stdio, arguments: &[&str]| {
        let child = command(arguments).stdout(output).stderr(Stdio::piped()).spawn();
        let Output { status, stderr, .. } = child.unwrap().wait_with_output().unwrap();
        assert_eq!(status.code(), Some(1));
        String::from_utf8(stderr).unwrap()
    };
    for arguments in [[OFFICE], ["--help"]] {
        let full = File::options().write(true).open("/dev/full").unwrap();
        let wanted = "registershow: standard output: No space left on device (os error 28)\n";
        assert_eq!(said(full.into(), &arguments), wanted);
        let (reader, writer) = io::pipe().unwrap();
        drop(reader);
        let wanted = "registershow: standard output: Broken pipe (os error 32)\n";
        assert_eq!(said(writer.into(), &arguments), wanted);
    }
}

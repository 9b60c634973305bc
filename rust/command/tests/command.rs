//! The command as a script sees it: what it prints, what it tells, its status.

use std::ffi::OsStr;
use std::fs;
use std::io::{Read, Write};
use std::path::{Path, PathBuf};
use std::process::{Command, Output, Stdio};
use std::sync::mpsc::channel;
use std::time::Duration;

/// A drawing with strokes, refusals and replies, and what strokes prints of it (docs/USERS.md).
const DRAWING: &str = "IN;SP1;PU0,0;PD1000,0;OA;SP9;OE;PD1000,500;";
const LINES: &str = "1 0 0 1000 0\n1000,0,1\r\nE 3 29\n3\r\n1 1000 0 1000 500\n";

/// How long an answer may take.
const PATIENCE: Duration = Duration::from_secs(20);

fn vutaroi() -> Command {
    Command::new(env!("CARGO_BIN_EXE_vutaroi"))
}

fn root() -> PathBuf {
    Path::new(env!("CARGO_MANIFEST_DIR")).join("../..")
}

/// The proved program strokes, which `tools/build strokes` makes.
fn proved() -> Command {
    let program = root().join("target/bin/strokes");
    assert!(program.exists(), "{} is missing: tools/build strokes makes it", program.display());
    Command::new(program)
}

/// A run with so much on standard input.
fn fed(command: &mut Command, input: &[u8]) -> Output {
    command.stdin(Stdio::piped()).stdout(Stdio::piped()).stderr(Stdio::piped());
    let mut child = command.spawn().expect("the program starts");
    let mut pipe = child.stdin.take().expect("a pipe");
    let input = input.to_vec();
    // A program that reads nothing closes the pipe.
    let feeder = std::thread::spawn(move || drop(pipe.write_all(&input)));
    let output = child.wait_with_output().expect("the program ends");
    feeder.join().expect("all is fed");
    output
}

fn run<S: AsRef<OsStr>>(words: &[S], input: &[u8]) -> Output {
    fed(vutaroi().args(words), input)
}

fn text(bytes: &[u8]) -> &str {
    std::str::from_utf8(bytes).expect("text")
}

/// The output of a run that is done, and tells nothing.
fn done<S: AsRef<OsStr>>(words: &[S], input: &[u8]) -> String {
    let output = run(words, input);
    assert_eq!((output.status.code(), text(&output.stderr)), (Some(0), ""));
    text(&output.stdout).into()
}

/// The status of a run that prints nothing, and what it tells.
fn failed<S: AsRef<OsStr>>(words: &[S], input: &[u8]) -> (i32, String) {
    let output = run(words, input);
    assert_eq!(text(&output.stdout), "");
    let told = text(&output.stderr);
    assert!(told.starts_with("vutaroi: ") && told.ends_with('\n'), "{told}");
    assert_eq!(told.lines().count(), 1, "{told}");
    (output.status.code().expect("a status"), told.trim_end().into())
}

/// A folder of a test's own, empty.
fn folder(name: &str) -> PathBuf {
    let folder = Path::new(env!("CARGO_TARGET_TMPDIR")).join(name);
    let _ = fs::remove_dir_all(&folder);
    fs::create_dir_all(&folder).expect("a folder");
    folder
}

fn written(folder: &Path, name: &str, content: impl AsRef<[u8]>) -> String {
    let file = folder.join(name);
    fs::write(&file, content).expect("a file");
    file.to_str().expect("a plain path").into()
}

#[test]
fn strokes_prints_strokes_refusals_and_replies() {
    assert_eq!(done(&["strokes"], DRAWING.as_bytes()), LINES);
    assert_eq!(done(&["strokes", "-"], DRAWING.as_bytes()), LINES);
    assert_eq!(done(&["strokes"], b""), "");
}

#[test]
fn several_files_are_drawings_of_their_own() {
    let folder = folder("several");
    let one = written(&folder, "one.hpgl", "SP2;PD5,5;PD");
    let two = written(&folder, "two.hpgl", "SP9;7,7;");
    let lines = "2 0 0 5 5\nE 3 4\nE 1 5\n";
    assert_eq!(done(&["strokes", &one, &two], b""), lines);
    let with_input = format!("{LINES}{lines}");
    assert_eq!(done(&["strokes", "-", &one, "--", &two], DRAWING.as_bytes()), with_input);
}

#[test]
fn a_file_after_two_minuses_may_begin_with_one() {
    let folder = folder("minus");
    written(&folder, "-o", DRAWING);
    let output = fed(vutaroi().current_dir(&folder).args(["strokes", "--", "-o"]), b"");
    assert_eq!(text(&output.stdout), LINES);
}

/// Each stored drawing, as it is and in one run, beside the proved program: byte for byte.
#[test]
fn strokes_prints_what_the_proved_program_prints() {
    let data = root().join("crates/drawings/data");
    let mut drawings = 0;
    for entry in fs::read_dir(data).expect("the stored drawings") {
        let path = entry.expect("an entry").path();
        if !path.extension().is_some_and(|end| end == "hpgl" || end == "plt") {
            continue;
        }
        let file = path.to_str().expect("a plain path");
        for limits in [&["--sheet", "hockey"][..], &["--sheet", "curling"], &[]] {
            let proved = fed(proved().args(limits).arg(file), b"");
            let ours = fed(vutaroi().arg("strokes").args(limits).arg(file), b"");
            assert!(ours.stdout == proved.stdout, "{file} {limits:?}");
        }
        drawings += 1;
    }
    assert!(drawings >= 10, "{drawings} drawings");
}

/// More than a block of bytes: strokes, refusals and replies at all places about the ends of blocks.
#[test]
fn many_blocks_are_as_the_proved_program_has_them() {
    let mut bytes = String::new();
    for k in 0..60_000_i64 {
        let (x, y) = (k * 7919 % 60_001 - 30_000, k * 104_729 % 30_001 - 15_000);
        bytes += &format!("SP{};PD{x},{y};", k % 10);
        if k % 97 == 0 {
            bytes += "OA;?;OE;";
        }
    }
    let proved = fed(proved().args(["-9000", "-9000", "9000", "9000"]), bytes.as_bytes());
    let words = ["strokes", "--limits", "-9000", "-9000", "9000", "9000"];
    assert!(run(&words, bytes.as_bytes()).stdout == proved.stdout);
    assert!(proved.stdout.len() > 500_000);
}

/// The sheets of the proved program, by the names in its help, and its own limits: OH tells each.
#[test]
fn sheets_are_those_of_the_proved_program() {
    let help = fed(proved().arg("--help"), b"").stdout;
    let line = text(&help).lines().find(|line| line.contains("--sheet NAME  ")).expect("a line");
    let (_, names) = line.split_once("by its name: ").expect("names");
    assert!(done(&["strokes", "--help"], b"").contains(&format!("by its name: {names}\n")));
    for name in names.split(", ") {
        let due = fed(proved().args(["--sheet", name]), b"OH;").stdout;
        assert_eq!(done(&["strokes", "--sheet", name], b"OH;").as_bytes(), due, "{name}");
    }
    assert_eq!(done(&["strokes"], b"OH;").as_bytes(), fed(&mut proved(), b"OH;").stdout);
}

#[test]
fn limits_are_four_numbers() {
    let words = ["strokes", "--limits", "-3", "-2", "3", "2"];
    assert_eq!(done(&words, b"OH;SP1;PD9,0;"), "-3,-2,3,2\r\n1 0 0 3 0\n");
}

#[test]
fn numbers_are_written_whole() {
    let ends = [
        "0", "9", "10", "99", "100", "999", "1000", "9999", "10000", "32767", "-1", "-10000",
        "-32768",
    ];
    let wide = ["strokes", "--limits", "-32768", "-32768", "32767", "32767"];
    for end in ends {
        let drawing = format!("SP8;PU{end},{end};PD{end},0;");
        assert_eq!(done(&wide, drawing.as_bytes()), format!("8 {end} {end} {end} 0\n"));
    }
}

#[test]
fn csv_is_a_table() {
    let head = "file,kind,pen,x0,y0,x1,y1,number,byte\n";
    let rows = |file: &str| {
        format!(
            "{file},stroke,1,0,0,1000,0,,\n{file},refusal,,,,,,3,29\n{file},stroke,1,1000,0,1000,500,,\n"
        )
    };
    assert_eq!(done(&["csv"], DRAWING.as_bytes()), format!("{head}{}", rows("-")));
    let folder = folder("csv");
    let plain = written(&folder, "a b.hpgl", DRAWING);
    let odd = written(&folder, "a,\"b\n.hpgl", DRAWING);
    let quoted = format!("\"{}\"", odd.replace('"', "\"\""));
    let due = format!("{head}{}{}", rows(&plain), rows(&quoted));
    assert_eq!(done(&["csv", &plain, &odd], b""), due);
}

#[test]
fn json_is_a_list_of_drawings() {
    let marks =
        "\n{\"pen\":1,\"x0\":0,\"y0\":0,\"x1\":1000,\"y1\":0},\n{\"number\":3,\"byte\":29},\n\
                 {\"pen\":1,\"x0\":1000,\"y0\":0,\"x1\":1000,\"y1\":500}";
    let object = |file: &str, limits: &str, marks: &str, bytes: usize| {
        format!(
            "{{\"file\":\"{file}\",\"limits\":[{limits}],\"marks\":[{marks}],\"bytes\":{bytes}}}"
        )
    };
    let default = "-10000,-7000,10000,7000";
    let due = format!("[\n{}]\n", object("-", default, marks, DRAWING.len()));
    assert_eq!(done(&["json"], DRAWING.as_bytes()), due);
    let folder = folder("json");
    let odd = written(&folder, "a\\\"\u{1}é.hpgl", "IN;");
    let empty = written(&folder, "empty.hpgl", "");
    let sheet = "-22860,-2500,22860,2500";
    let escaped = odd.replace('\\', "\\\\").replace('"', "\\\"").replace('\u{1}', "\\u0001");
    let (first, second) = (object(&escaped, sheet, "", 3), object(&empty, sheet, "", 0));
    let due = format!("[\n{first},\n{second}]\n");
    assert_eq!(done(&["json", "--sheet", "curling", &odd, &empty], b""), due);
}

#[test]
fn redraw_writes_hpgl_that_paints_the_same() {
    let data = root().join("crates/drawings/data/ice-hockey.hpgl");
    let file = data.to_str().expect("a plain path");
    let lines = done(&["strokes", "--sheet", "hockey", file], b"");
    let drawing = done(&["redraw"], lines.as_bytes());
    assert!(drawing.starts_with("IN;SP1;PU-21500,-15000;PD21500,-15000;"));
    assert_eq!(done(&["strokes", "--sheet", "hockey"], drawing.as_bytes()), lines);
}

#[test]
fn redraw_passes_over_refusals_and_replies_and_counts_them() {
    let output = run(&["redraw"], LINES.as_bytes());
    assert_eq!(output.status.code(), Some(0));
    assert_eq!(text(&output.stdout), "IN;SP1;PU0,0;PD1000,0;PU1000,0;PD1000,500;");
    let told = "vutaroi: lines of refusals and replies passed over: 3\n";
    assert_eq!(text(&output.stderr), told);
}

#[test]
fn redraw_makes_one_drawing_of_several_files() {
    let folder = folder("redraw");
    let one = written(&folder, "one.txt", "1 0 0 5 5\n");
    let two = written(&folder, "two.txt", "2 5 5 9 9");
    let due = "IN;SP1;PU0,0;PD5,5;SP2;PU5,5;PD9,9;";
    assert_eq!(done(&["redraw", &one, &two], b""), due);
    assert_eq!(done(&["redraw"], b""), "IN;");
}

#[test]
fn redraw_tells_a_line_that_it_cannot_write() {
    let folder = folder("lines");
    let file = written(&folder, "a.txt", "1 0 0 5 5\n9 0 0 5 5\n");
    let cause = "refused with 32, a pen other than 1 to 8 or an end outside -32768 to 32767";
    let told = format!("vutaroi: {file}: line 2: {cause}: 9 0 0 5 5");
    assert_eq!(failed(&["redraw", &file], b""), (1, told));
    for line in [
        "hello",
        "1 0 0 5",
        "1 0 0 5 5 5",
        "",
        "1  0 0 5 5",
        "E 3",
        "1,2",
        "1 0 0 5 5.0",
        "\u{fffd}",
    ] {
        let told = format!("vutaroi: standard input: line 2: no stroke: {line}");
        let lines = format!("1 0 0 5 5\n{line}\n");
        assert_eq!(failed(&["redraw"], lines.as_bytes()), (1, told.trim_end().into()));
    }
    for end in ["32768", "-32769", "9223372036854775807"] {
        let (status, told) = failed(&["redraw"], format!("1 0 0 5 {end}").as_bytes());
        assert_eq!(status, 1);
        assert!(told.starts_with("vutaroi: standard input: line 1: refused with 32"), "{told}");
    }
}

#[test]
fn help_and_version_are_asked_for() {
    let help = done(&["--help"], b"");
    assert!(help.starts_with("usage: vutaroi SUBCOMMAND"));
    for name in ["strokes", "csv", "json", "redraw"] {
        assert!(help.contains(&format!("\n  {name} ")), "{name}");
        let own = done(&[name, "missing", "--help"], b"");
        assert!(own.starts_with(&format!("usage: vutaroi {name} ")), "{own}");
        assert!(own.contains("\n  -o FILE"), "{own}");
        assert_eq!(done(&[name, "--version"], b""), "vutaroi 0.1.0 (library 0.1.0)\n");
    }
    assert_eq!(done(&["--version"], b""), "vutaroi 0.1.0 (library 0.1.0)\n");
}

#[test]
fn wrong_words_are_told_with_status_2() {
    let rows: [(&[&str], &str); 17] = [
        (&[], "a subcommand is missing"),
        (&["paint"], "paint: no such subcommand"),
        (&["--sheet", "hockey"], "--sheet: no such subcommand"),
        (&["strokes", "--shet", "hockey"], "--shet: no such option"),
        (&["strokes", "-x"], "-x: no such option"),
        (&["csv", "--sheet", "hokey"], "hokey: no sheet has this name; sheets are hockey, curling"),
        (&["json", "--sheet"], "--sheet: the word after it is missing"),
        (&["strokes", "-o"], "-o: the word after it is missing"),
        (&["strokes", "-o", "a", "-o", "b"], "-o: the output and the limits are each given once"),
        (&["strokes", "--sheet", "hockey", "--limits", "0", "0", "1", "1"], "--limits: the output"),
        (&["strokes", "--limits", "0", "0", "1"], "--limits: four numbers follow it"),
        (&["strokes", "--limits", "0", "0", "1", "one"], "one: a limit is a whole number"),
        (&["strokes", "--limits", "0", "0", "0", "5"], "--limits 0 0 0 5: refused with 10"),
        (&["strokes", "--limits", "0", "0", "5", "-5"], "--limits 0 0 5 -5: refused with 10"),
        (&["strokes", "--limits", "0", "0", "5", "32768"], "--limits 0 0 5 32768: refused with 10"),
        (&["redraw", "--sheet", "hockey"], "--sheet: no such option"),
        (&["redraw", "--limits", "0", "0", "1", "1"], "--limits: no such option"),
    ];
    for (words, why) in rows {
        let (status, told) = failed(words, b"");
        assert_eq!(status, 2, "{told}");
        assert!(told.starts_with(&format!("vutaroi: {why}")), "{told}");
        assert!(told.ends_with("(vutaroi --help says more)"), "{told}");
    }
}

#[test]
fn an_input_that_cannot_be_read_is_told_with_status_3() {
    let folder = folder("inputs");
    let missing = folder.join("missing.hpgl");
    let missing = missing.to_str().expect("a plain path");
    let directory = folder.to_str().expect("a plain path");
    for command in ["strokes", "redraw"] {
        let (status, told) = failed(&[command, missing], b"");
        assert_eq!(status, 3);
        assert!(told.starts_with(&format!("vutaroi: {missing}: No such file")), "{told}");
        let (status, told) = failed(&[command, directory], b"");
        assert_eq!(status, 3);
        assert!(told.starts_with(&format!("vutaroi: {directory}: Is a directory")), "{told}");
    }
    let good = written(&folder, "good.hpgl", DRAWING);
    for command in ["csv", "json"] {
        let output = run(&[command, &good, missing], b"");
        assert_eq!(output.status.code(), Some(3));
        assert!(!text(&output.stdout).ends_with("]\n"), "a list that is cut short has no end");
    }
    let output = run(&["strokes", &good, missing, &good], b"");
    assert_eq!((output.status.code(), text(&output.stdout)), (Some(3), LINES));
}

#[test]
fn an_output_file_is_written() {
    let folder = folder("output");
    let file = folder.join("out.txt");
    let out = file.to_str().expect("a plain path");
    for (command, input) in
        [("strokes", DRAWING), ("csv", DRAWING), ("json", DRAWING), ("redraw", "1 0 0 5 5")]
    {
        assert_eq!(done(&[command, "-o", out], input.as_bytes()), "");
        assert_eq!(fs::read_to_string(&file).expect("a file"), done(&[command], input.as_bytes()));
    }
    assert_eq!(done(&["strokes", "-o", out], b""), "");
    assert_eq!(fs::read(&file).expect("a file"), b"", "nothing is painted, and nothing old stays");
}

#[test]
fn an_output_stays_where_no_input_can_be_opened_or_written() {
    let folder = folder("kept");
    let out = written(&folder, "out.txt", "before");
    assert_eq!(failed(&["strokes", "-o", &out, "/nowhere/a.hpgl"], b"").0, 3);
    assert_eq!(failed(&["redraw", "-o", &out], b"hello\n").0, 1);
    assert_eq!(failed(&["strokes", "-o", &out, &out], b"").0, 2);
    assert_eq!(fs::read_to_string(&out).expect("a file"), "before");
}

#[test]
fn an_output_that_fails_is_told_with_status_3() {
    let full = || fs::OpenOptions::new().write(true).open("/dev/full").expect("/dev/full");
    for words in [&["strokes"][..], &["csv"], &["json"], &["redraw"], &["--help"], &["--version"]] {
        let input = if words == ["redraw"] { "1 0 0 5 5" } else { DRAWING };
        let mut command = vutaroi();
        let mut child = command
            .args(words)
            .stdin(Stdio::piped())
            .stdout(full())
            .stderr(Stdio::piped())
            .spawn()
            .expect("the program starts");
        drop(child.stdin.take().map(|mut pipe| pipe.write_all(input.as_bytes())));
        let output = child.wait_with_output().expect("the program ends");
        assert_eq!(output.status.code(), Some(3), "{words:?}");
        let told = text(&output.stderr);
        assert!(told.starts_with("vutaroi: standard output: No space left"), "{told}");
    }
    let (status, told) = failed(&["strokes", "-o", "/dev/full"], DRAWING.as_bytes());
    assert_eq!(status, 3);
    assert!(told.starts_with("vutaroi: /dev/full: No space left"), "{told}");
    let (status, told) = failed(&["strokes", "-o", "/nowhere/a.txt"], DRAWING.as_bytes());
    assert_eq!(status, 3);
    assert!(told.starts_with("vutaroi: /nowhere/a.txt: No such file"), "{told}");
}

/// A reader that went away, as head does: nothing is told, and the status says that not all was done.
#[test]
fn a_closed_pipe_ends_it_quietly() {
    let mut command = vutaroi();
    command.arg("strokes").stdin(Stdio::piped()).stdout(Stdio::piped()).stderr(Stdio::piped());
    let mut child = command.spawn().expect("the program starts");
    drop(child.stdout.take());
    let drawing = format!("SP1;{}", "PD1,1;PD0,0;".repeat(50_000));
    drop(child.stdin.take().map(|mut pipe| pipe.write_all(drawing.as_bytes())));
    let output = child.wait_with_output().expect("the program ends");
    assert_eq!((output.status.code(), text(&output.stderr)), (Some(3), ""));
}

/// A package that asks and waits: it gets its reply, and the strokes before it, while the pipe is open.
#[test]
fn a_question_is_answered_while_the_pipe_is_open() {
    let mut command = vutaroi();
    command.arg("strokes").stdin(Stdio::piped()).stdout(Stdio::piped());
    let mut child = command.spawn().expect("the program starts");
    let mut pipe = child.stdin.take().expect("a pipe");
    let printed = child.stdout.take().expect("a pipe");
    // Read beside the test: an answer that does not come fails it, and does not hold it up.
    let (told, answers) = channel();
    std::thread::spawn(move || {
        printed.bytes().map_while(Result::ok).try_for_each(|byte| told.send(byte))
    });
    for (sent, due) in
        [("SP1;PD5,5;OA;", "1 0 0 5 5\n5,5,1\r\n"), ("?;", "E 1 14\n"), ("OE;", "1\r\n")]
    {
        pipe.write_all(sent.as_bytes()).expect("it reads");
        let next = |_| answers.recv_timeout(PATIENCE).expect("it answers in time");
        let answer: Vec<u8> = due.bytes().map(next).collect();
        assert_eq!(text(&answer), due);
    }
    drop(pipe);
    assert!(child.wait().expect("the program ends").success());
}

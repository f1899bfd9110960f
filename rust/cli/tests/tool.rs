//! The tool as it is built, run as a user runs it: what it prints, says and exits with.

use std::fs;
use std::io::Write;
use std::path::{Path, PathBuf};
use std::process::{Command, Output, Stdio};

use zelmotar::Rule;

/// A file of the repository.
fn tracked(path: &str) -> PathBuf {
    Path::new(env!("CARGO_MANIFEST_DIR")).join("../..").join(path)
}

/// A file with these bytes, in a folder for the tests.
fn made(name: &str, bytes: impl AsRef<[u8]>) -> PathBuf {
    let path = Path::new(env!("CARGO_TARGET_TMPDIR")).join(name);
    fs::write(&path, bytes).unwrap();
    path
}

/// Runs the tool with standard input, to its end.
fn fed(input: &[u8], args: &[&dyn AsRef<std::ffi::OsStr>]) -> Output {
    let mut child = Command::new(env!("CARGO_BIN_EXE_zelmotar-cli"))
        .args(args)
        .stdin(Stdio::piped())
        .stdout(Stdio::piped())
        .stderr(Stdio::piped())
        .spawn()
        .unwrap();
    // The tool may stop before it has read everything.
    let _ = child.stdin.take().unwrap().write_all(input);
    child.wait_with_output().unwrap()
}

fn tool(args: &[&dyn AsRef<std::ffi::OsStr>]) -> Output {
    fed(b"", args)
}

/// Whether the tool ends with a code and says some words, in what it prints or in what it says of
/// its end.
#[track_caller]
fn ends(output: &Output, code: i32, words: &str) {
    let said = [&output.stdout[..], &output.stderr].concat();
    let said = String::from_utf8_lossy(&said);
    assert_eq!(output.status.code(), Some(code), "{said}");
    assert!(said.contains(words), "{said}");
}

#[test]
fn the_first_example_is_the_programs_own_test() {
    let first = tracked("examples/first.batch");
    let plain = tool(&[&"run", &"--plain", &first]);
    assert_eq!(plain.stdout, fs::read(tracked("crates/zelmotar/stdout")).unwrap());
    let bytes = tool(&[&"run", &"--bytes", &first]);
    assert_eq!(bytes.stdout, fs::read(tracked("crates/zelmotar/stdin")).unwrap());
    let shown = tool(&[&"run", &first]);
    ends(
        &shown,
        0,
        "JOIN 3 2 2               16          0   no room; collected, and 2 dead cells went\n",
    );
    ends(&shown, 0, "WRAP 3 2                  0          0   done; register 3: (65 66)\n");
    ends(
        &shown,
        0,
        "top 19\nregister 2: 65 66\nregister 3: (65 66)\nthe other registers are empty\n",
    );
}

#[test]
fn every_status_of_a_call_is_said_in_words() {
    let shown = tool(&[&"run", &tracked("examples/asking.batch")]);
    for line in [
        "CALL 12 0 0 0            10          0   no such operation\n",
        "COPY 16 0                11          0   no such register\n",
        "CALL 10 0 0 7            12          0   a word that it does not use is not 0\n",
        "SYMBOL 0 268435456       13          0   the code is 0 or too large\n",
        "SYMBOL 0 0               13          0   the code is 0 or too large\n",
        "HEAD 5 5                 14          0   the register is empty\n",
        "OPEN 4 4                 15          0   its first term is of the other kind\n",
        "LIVE                      0          6   done\n",
        "COLLECT                   0          6   done; collected, and 1 dead cell went\n",
    ] {
        ends(&shown, 0, line);
    }
}

#[test]
fn which_cells_went_is_said() {
    let calls = "SYMBOL 0 65\nSYMBOL 0 66\nSYMBOL 0 67\nWRAP 0 0\n";
    let one = tool(&[&"run", &made("one.batch", format!("CAPACITY 17\n{calls}"))]);
    for line in [
        "SYMBOL 0 65               0          0   done; register 0: 65\n",
        "SYMBOL 0 66               0          0   done; register 0: 66; \
         collected, and 1 cell of its old expression went\n",
        "WRAP 0 0                 16          0   no room; collected, and no cell was dead\n",
        "top 17\nregister 0: 67\n",
    ] {
        ends(&one, 0, line);
    }
    let two = tool(&[&"run", &made("two.batch", format!("CAPACITY 18\n{calls}"))]);
    for line in [
        "SYMBOL 0 66               0          0   done; register 0: 66\n",
        "SYMBOL 0 67               0          0   done; register 0: 67; \
         collected, and 1 dead cell and 1 of its old expression went\n",
        "WRAP 0 0                  0          0   done; register 0: (67)\n",
    ] {
        ends(&two, 0, line);
    }
}

#[test]
fn exit_codes() {
    let first = tracked("examples/first.batch");
    let fine = made("fine.batch", "CAPACITY 20\nLIVE\n");
    ends(&tool(&[&"run", &first]), 0, "no room");
    ends(&tool(&[&"run", &"--strict", &first]), 1, "no room");
    ends(&tool(&[&"run", &"--strict", &"--plain", &first]), 1, "16 0");
    ends(&tool(&[&"run", &"--strict", &fine]), 0, "top 16");
    ends(
        &tool(&[&"run", &made("capacity.batch", "CAPACITY 15\n")]),
        3,
        "refused 1 0: no store has that capacity",
    );
    ends(
        &tool(&[&"run", &made("swap.batch", "CAPACITY 20\n\nSWAP 1\n")]),
        3,
        "swap.batch:3: no call is named `SWAP`",
    );
    for help in ["--help", "-h"] {
        ends(&tool(&[&help]), 0, "Exit codes: 0 done;");
        ends(&tool(&[&"draw", &help]), 0, "Exit codes: 0 done;");
    }
    ends(&tool(&[]), 2, "which command?");
    ends(&tool(&[&"walk"]), 2, "there is no command `walk`");
    ends(&tool(&[&"run"]), 2, "run takes one batch file, and here are 0");
    ends(&tool(&[&"run", &"--loud", &fine]), 2, "run knows no --loud");
    ends(&tool(&[&"run", &"--bytes", &"--strict", &fine]), 2, "run --bytes runs nothing");
    ends(&tool(&[&"run", &"no-such.batch"]), 2, "cannot read no-such.batch: no such file");
    ends(&tool(&[&"run", &tracked("examples")]), 2, "it is a folder");
    ends(&tool(&[&"show", &"no-such.dump"]), 2, "no such file");
    ends(&tool(&[&"ask", &"many"]), 2, "capacity: `many` is no number");
}

#[test]
fn names_and_bytes_of_all_kinds() {
    let live = "LIVE                      0          0   done\n";
    ends(&tool(&[&"run", &made("a=b.batch", "CAPACITY 20\nLIVE\n")]), 0, live);
    ends(&tool(&[&"run", &made("bom.batch", b"\xef\xbb\xbfCAPACITY 20\nLIVE\n")]), 0, live);
    ends(&tool(&[&"run", &made("crlf.batch", "CAPACITY 20\r\nLIVE # all\r\n")]), 0, live);
    ends(&fed(b"CAPACITY 20\nLIVE", &[&"run", &"-"]), 0, live);
    ends(&fed(b"CAPACITY 20\nSWAP", &[&"run", &"-"]), 3, "-:2: no call");
    ends(
        &tool(&[&"run", &made("empty.batch", "")]),
        3,
        "empty.batch:1: the first line is `CAPACITY n`",
    );
    ends(
        &tool(&[&"run", &made("bare.batch", "LIVE\n")]),
        3,
        "bare.batch:1: the first line is `CAPACITY n`",
    );
    ends(&tool(&[&"run", &made("wide.batch", b"\xff\xfeC\0A\0")]), 3, "UTF-16");
    let garbage: Vec<u8> =
        (0..70_000u32).map(|i| (i.wrapping_mul(2_654_435_761) >> 13) as u8).collect();
    let garbage = made("garbage", garbage);
    for command in ["run", "show", "draw", "check"] {
        ends(&tool(&[&command, &garbage]), 3, "garbage:1: ");
    }
    ends(&tool(&[&"print", &garbage, &"0"]), 3, "garbage:1: ");
    ends(&tool(&[&"type", &garbage, &"0", &"1"]), 3, "garbage:1: ");
    ends(&tool(&[&"check", &"--top", &"16", &garbage]), 3, "No store has 17500 words");
    ends(
        &tool(&[&"run", &env!("CARGO_BIN_EXE_zelmotar-cli")]),
        3,
        ":1: no call is named `\\u{7f}ELF",
    );
}

#[test]
fn two_million_calls_are_refused_as_the_program_refuses_them() {
    let many = made("many.batch", format!("CAPACITY 16\n{}", "LIVE\n".repeat(2_000_000)));
    ends(&tool(&[&"run", &many]), 3, "refused 4 0: too many calls, or a broken call\n");
    assert_eq!(tool(&[&"run", &"--plain", &many]).stdout, b"refused 4 0\n");
    assert_eq!(tool(&[&"run", &"--bytes", &many]).stdout.len(), 4 + 32_000_000);
    let both = made("both.batch", format!("CAPACITY 15\n{}", "LIVE\n".repeat(1025)));
    ends(&tool(&[&"run", &both]), 3, "refused 1 0: ");
    let most = made("most.batch", format!("CAPACITY 16\n{}", "LIVE\n".repeat(1024)));
    ends(&tool(&[&"run", &most]), 0, "top 16\n");
}

#[test]
fn a_damaged_cell_is_named_with_its_words() {
    let sound = fs::read_to_string(tracked("examples/p2.dump")).unwrap();
    let damaged = made("damaged.dump", sound.replace("18 0x80000014", "18 0x80000015"));
    let sentence = "Cell 21, a heap cell, is damaged (rule 5): its words are 18 and 2147483669 \
                    (0x00000012 0x80000015), and its right end, 21, is not below the cell itself.\n";
    ends(&tool(&[&"check", &damaged]), 3, sentence);
    ends(&tool(&[&"show", &damaged]), 3, sentence);
    ends(&tool(&[&"show", &damaged]), 3, "bracket, cells 18 to 21  damaged, rule 5\n");
    ends(&tool(&[&"draw", &damaged]), 3, sentence);
    ends(&tool(&[&"print", &damaged, &"0"]), 3, sentence);
    ends(&tool(&[&"print", &damaged, &"16"]), 3, sentence);
    ends(&tool(&[&"type", &damaged, &"16", &"x"]), 3, sentence);
    assert!(tool(&[&"draw", &damaged]).stdout.is_empty());
    assert!(tool(&[&"print", &damaged, &"0"]).stdout.is_empty());
    assert!(tool(&[&"type", &damaged, &"0", &"1"]).stdout.is_empty());
    let top = made("top.dump", sound.replace("TOP 23", "TOP 25"));
    ends(&tool(&[&"check", &top]), 3, "top is 25, and must be 16 to 24");
    let short = made("short.dump", "TOP 16\n0 0 0\n");
    ends(&tool(&[&"check", &short]), 3, "No store has 3 words: their number is even, 32 to 8192.");
    ends(&tool(&[&"show", &short]), 3, "No store has 3 words");
    ends(
        &tool(&[&"check", &made("no.dump", "1 2 3\n")]),
        3,
        "no.dump:1: the first line of a dump is `TOP n`",
    );
    ends(
        &tool(&[&"check", &"--top", &"16", &made("odd.bytes", [0; 7])]),
        3,
        "7 bytes are no whole words",
    );
}

#[test]
fn a_wiped_cell_is_damaged() {
    let sound = fs::read_to_string(tracked("examples/p2.dump")).unwrap();
    let wiped = made("wiped.dump", sound.replace("67 0\n", "0 0\n"));
    let sentence = "Cell 19, a heap cell, is damaged (rule 4): its words are 0 and 0 (0x00000000 0x00000000), and \
                    only a cell from top on is two zero words: a symbol's code is 1 at least.\n";
    ends(&tool(&[&"check", &wiped]), 3, sentence);
    let shown = tool(&[&"show", &wiped]);
    ends(&shown, 3, "  19  0x00000000  0x00000000   neither symbol nor bracket  damaged, rule 4\n");
    ends(&shown, 3, "  18  0x00000042  0x00000000   symbol 66\n");
    assert!(!String::from_utf8_lossy(&shown.stdout).contains("\n  23  "), "cell 23 is free");
    let register = made("register.dump", sound.replacen("0 0x80000000", "0 0", 1));
    ends(&tool(&[&"check", &register]), 3, "and a register is a bracket.\n");
    ends(&tool(&[&"show", &register]), 3, "   1  0x00000000  0x00000000   neither symbol");
}

#[test]
fn each_rule_is_said_with_its_number() {
    let sound = fs::read_to_string(tracked("examples/p2.dump")).unwrap();
    for (rule, from, to, cell) in [
        (1, "\n67 0\n", "\n67 0x40000000\n", "Cell 19, a heap cell"),
        (2, "\n0 0x80000000", "\n65 0", "Cell 1, a register"),
        (3, "\n0 0x80000000", "\n16 0x80000000", "Cell 1, a register"),
        (4, "\n67 0\n", "\n67 1\n", "Cell 19, a heap cell"),
        (5, "\n18 0x80000014", "\n21 0x80000014", "Cell 21, a heap cell"),
        (6, "\n0 0 ", "\n65 0 ", "Cell 23, a heap cell"),
    ] {
        assert!(sound.contains(from), "{from}");
        let damaged = made(&format!("rule{rule}.dump"), sound.replacen(from, to, 1));
        let sentence = format!("{cell}, is damaged (rule {rule}): its words are ");
        for command in ["check", "show", "draw"] {
            ends(&tool(&[&command, &damaged]), 3, &sentence);
        }
        ends(&tool(&[&"show", &damaged]), 3, &format!("  damaged, rule {rule}\n"));
        ends(&tool(&[&"print", &damaged, &"0"]), 3, &sentence);
        ends(&tool(&[&"type", &damaged, &"0", &"1"]), 3, &sentence);
        ends(&tool(&[&"save", &damaged, &"-"]), 3, &sentence);
    }
    // Two cells, of which the first is said, and both are marked.
    let both = sound.replacen("\n67 0\n", "\n67 1\n", 1).replacen("\n0 0 ", "\n65 0 ", 1);
    let shown = tool(&[&"show", &made("rules.dump", both)]);
    ends(&shown, 3, "  19  0x00000043  0x00000001   neither symbol nor bracket  damaged, rule 4\n");
    ends(&shown, 3, "  23  0x00000041  0x00000000   symbol 65  damaged, rule 6\n");
    ends(&shown, 3, "\n\nCell 19, a heap cell, is damaged (rule 4): ");
}

#[test]
fn the_help_lists_the_rules() {
    let help = tool(&[&"--help"]);
    for rule in Rule::ALL {
        ends(&help, 0, &format!("\n  rule {}: {rule}\n", rule.number()));
    }
}

#[test]
fn a_dump_is_shown_as_cells_and_expressions() {
    let p2 = tracked("examples/p2.dump");
    ends(
        &tool(&[&"check", &p2]),
        0,
        "The store is sound: 24 cells, top 23, 6 of 7 occupied heap cells live.\n",
    );
    let shown = tool(&[&"show", &p2]);
    ends(&shown, 0, "  16  0x00000046  0x00000000   symbol 70  dead\n");
    ends(&shown, 0, "  21  0x00000012  0x80000014   bracket, cells 18 to 20 (66 67 68)\n");
    ends(&shown, 0, "register 0: (66 67 68) (65 66 67)\n");
    let collected = tool(&[&"show", &"--collected", &p2]);
    ends(&collected, 0, "  21  0x00000010  0x80000012   bracket, cells 16 to 18 (65 66 67)\n");
    ends(&collected, 0, "register 0: (66 67 68) (65 66 67)\n");
}

#[test]
fn a_register_of_a_dump_is_printed() {
    let p2 = tracked("examples/p2.dump");
    assert_eq!(tool(&[&"print", &p2, &"0"]).stdout, b"(66 67 68) (65 66 67)\n");
    assert_eq!(tool(&[&"print", &p2, &"15"]).stdout, b"\n");
    assert_eq!(tool(&[&"print", &"--limit", &"21", &p2, &"0"]).status.code(), Some(0));
    let refused = [
        (tool(&[&"print", &p2, &"16"]), "no register has that number: 16, and they are 0 to 15\n"),
        (
            tool(&[&"print", &"--limit", &"20", &p2, &"0"]),
            "the space is too short: the text has over 20 bytes; --limit allows more\n",
        ),
        (
            tool(&[&"print", &"--top", &"16", &made("three.bytes", [0; 12]), &"0"]),
            "No store has 3 words",
        ),
    ];
    for (output, sentence) in &refused {
        ends(output, 3, sentence);
        assert!(output.stdout.is_empty());
    }
    ends(&tool(&[&"print", &p2]), 2, "print takes a dump file and a register, and here are 1");
    ends(&tool(&[&"print", &p2, &"first"]), 2, "register: `first` is no number");
    ends(&tool(&[&"print", &p2, &"0", &"--limit", &"x"]), 2, "--limit: `x` is no number");
}

#[test]
fn a_text_is_typed_into_a_register_of_a_dump() {
    let p2 = tracked("examples/p2.dump");
    let typed = tool(&[&"type", &p2, &"1", &"5"]);
    ends(&typed, 0, "# 24 cells\nTOP 24\n");
    assert_eq!(fed(&typed.stdout, &[&"print", &"-", &"1"]).stdout, b"5\n");
    assert_eq!(fed(&typed.stdout, &[&"print", &"-", &"0"]).stdout, b"(66 67 68) (65 66 67)\n");
    ends(&tool(&[&"type", &p2, &"0", &""]), 0, "TOP 23\n");
    // Register 0 with its own text: two brackets hold three symbols each, and nothing is shared then. All
    // eight heap cells are for it, as what it holds goes.
    let text = "(66 67 68) (65 66 67)";
    let again = tool(&[&"type", &p2, &"0", &text]);
    ends(&again, 0, "TOP 24\n");
    assert_eq!(fed(&again.stdout, &[&"print", &"-", &"0"]).stdout, format!("{text}\n").as_bytes());

    let left = made("typed.dump", fs::read(&p2).unwrap());
    let quiet = tool(&[&"type", &left, &"1", &"5", &"--dump", &left]);
    ends(&quiet, 0, "");
    assert!(quiet.stdout.is_empty());
    assert_eq!(fs::read(&left).unwrap(), typed.stdout);
    ends(&tool(&[&"type", &p2, &"1", &"5", &"--dump", &"/no/such/folder/x"]), 2, "cannot write");
}

#[test]
fn a_text_that_is_refused_leaves_no_dump() {
    let p2 = tracked("examples/p2.dump");
    for (register, text, sentence) in [
        ("0", "5 x", "23 at byte 2: no text of an expression: `x` cannot stand here\n"),
        ("0", "268435456", "13 at byte 8: the code is 0 or too large: it is over 268435455\n"),
        (
            "0",
            "(7 0 12)",
            "13 at byte 3: the code is 0 or too large: a code begins with no 0, and the least is 1\n",
        ),
        ("1", "1 2 3", "no room: the text needs 3 new cells, and 2 can be had\n"),
        ("0", "1 2 3 4 5 6 7 8 9", "no room: the text needs 9 new cells, and 8 can be had\n"),
        ("16", "x", "no register has that number: 16, and they are 0 to 15\n"),
    ] {
        let output = tool(&[&"type", &p2, &register, &text]);
        ends(&output, 3, sentence);
        assert!(output.stdout.is_empty());
    }
    let kept = made("kept.dump", fs::read(&p2).unwrap());
    ends(&tool(&[&"type", &kept, &"1", &"1 2 3", &"--dump", &kept]), 3, "no room");
    assert_eq!(fs::read(&kept).unwrap(), fs::read(&p2).unwrap());
    let names = "type takes a dump file, a register and a text, and here are";
    ends(&tool(&[&"type", &p2, &"0"]), 2, &format!("{names} 2"));
    ends(&tool(&[&"type", &p2, &"0", &"1", &"2"]), 2, &format!("{names} 4"));
    ends(&tool(&[&"type", &p2, &"first", &"1"]), 2, "register: `first` is no number");
    ends(&tool(&[&"type", &"no-such.dump", &"0", &"1"]), 2, "no such file");
}

#[test]
fn a_text_is_counted() {
    let file = made("counted.text", "65 (66 67) ()\n");
    let counted = tool(&[&"count", &file]);
    ends(&counted, 0, "");
    assert_eq!(counted.stdout, b"The text needs 5 new cells; its widest level has 3 terms.\n");
    assert_eq!(fed(b"65 (66 67) ()", &[&"count", &"-"]).stdout, counted.stdout);
    for (text, said) in [
        ("", "The text needs 0 new cells; its widest level has 0 terms.\n"),
        ("7\r\n", "The text needs 1 new cell; its widest level has 1 term.\n"),
        ("(1 2 3 4) 5", "The text needs 6 new cells; its widest level has 4 terms.\n"),
    ] {
        ends(&fed(text.as_bytes(), &[&"count", &"-"]), 0, said);
    }
    // As many cells as it takes to type in what was printed.
    let printed = tool(&[&"print", &tracked("examples/p2.dump"), &"0"]).stdout;
    let sentence = "The text needs 8 new cells; its widest level has 3 terms.\n";
    ends(&fed(&printed, &[&"count", &"-"]), 0, sentence);
    let most = vec!["()"; 65_536].join(" ");
    let sentence = "The text needs 65536 new cells; its widest level has 65536 terms.\n";
    ends(&fed(most.as_bytes(), &[&"count", &"-"]), 0, sentence);
}

#[test]
fn a_text_that_is_refused_is_not_counted() {
    // In the first piece, at the border of two, and far behind it.
    let long = "7 ".repeat(32_768);
    for (text, sentence) in [
        ("5 x".to_string(), "23 at byte 2: no text of an expression: `x` cannot stand here\n"),
        ("(5\n".into(), "23 at byte 2: no text of an expression: the text ends too soon\n"),
        (
            "5\n6\n".into(),
            "23 at byte 1: no text of an expression: the byte 10 stands in no text\n",
        ),
        (long.clone() + "x", "23 at byte 65536: no text of an expression: `x` cannot stand here\n"),
        (long[1..].to_string() + "x", "23 at byte 0: no text of an expression: no space can stand"),
        (
            long[..65_530].to_string() + "268435456",
            "13 at byte 65538: the code is 0 or too large: it is over 268435455\n",
        ),
        (
            long.clone() + "0",
            "13 at byte 65536: the code is 0 or too large: a code begins with no 0, and the least",
        ),
        (
            long.clone() + &"(".repeat(65),
            "21 at byte 65600: brackets are nested too deep: over 64 would be open here\n",
        ),
        (long.repeat(300), "24 at byte 131072: too many terms: over 65536 would have begun here\n"),
    ] {
        let output = fed(text.as_bytes(), &[&"count", &"-"]);
        ends(&output, 3, &format!("zelmotar-cli: -: {sentence}"));
        assert!(output.stdout.is_empty());
        let file = made("refused.text", text);
        ends(&tool(&[&"count", &file]), 3, &format!("refused.text: {sentence}"));
    }
    ends(&tool(&[&"count"]), 2, "count takes one text file, and here are 0");
    ends(&tool(&[&"count", &"a", &"b"]), 2, "count takes one text file, and here are 2");
    ends(&tool(&[&"count", &"--top", &"1", &"a"]), 2, "count knows no --top");
    ends(&tool(&[&"count", &"no-such.text"]), 2, "cannot read no-such.text: no such file");
    ends(&tool(&[&"count", &tracked("examples")]), 2, "it is a folder");
}

#[test]
fn a_text_too_deep_or_too_long_is_refused() {
    let dump = made("deep.dump", "");
    let batch = format!("CAPACITY 200\n{}", "WRAP 0 0\n".repeat(65));
    let batch = made("deep.batch", batch + "SYMBOL 1 5\n" + &"WRAP 1 1\nJOIN 1 1 1\n".repeat(30));
    ends(&tool(&[&"run", &batch, &"--dump", &dump]), 0, "top ");
    let deep = "brackets are nested too deep: over 64 would be open at one place of the text\n";
    ends(&tool(&[&"print", &dump, &"0"]), 3, deep);
    let long = "the space is too short: the text has over 65536 bytes; --limit allows more\n";
    ends(&tool(&[&"print", &dump, &"1"]), 3, long);
    let bytes = tool(&[&"print", &dump, &"1", &"--limit", &"1000000"]);
    ends(&bytes, 3, "the text has over 1000000 bytes; ");
}

#[test]
fn a_batch_leaves_a_dump_of_text_and_bytes_are_one_too() {
    let dump = made("left.dump", "");
    let out = tool(&[&"run", &tracked("examples/first.batch"), &"--dump", &dump]);
    ends(&out, 0, "top 19\n");
    ends(&tool(&[&"show", &dump]), 0, "register 3: (65 66)\n");
    let words: Vec<u32> = fs::read_to_string(&dump)
        .unwrap()
        .lines()
        .filter(|line| line.starts_with("0x"))
        .flat_map(|line| {
            line.split(' ')
                .take(2)
                .map(|word| u32::from_str_radix(&word[2..], 16).unwrap())
                .collect::<Vec<_>>()
        })
        .collect();
    let bytes: Vec<u8> = words.iter().flat_map(|word| word.to_le_bytes()).collect();
    let bytes = made("left.bytes", bytes);
    let shown = tool(&[&"show", &"--top", &"19", &bytes]);
    assert_eq!(shown.stdout, tool(&[&"show", &dump]).stdout);
    ends(&shown, 0, "20 cells, top 19, 3 of 3 occupied heap cells live\n");
    ends(
        &tool(&[&"run", &tracked("examples/first.batch"), &"--dump", &"/no/such/folder/x"]),
        2,
        "cannot write",
    );
}

#[test]
fn a_dump_is_saved_and_loaded() {
    let (p2, saved) = (tracked("examples/p2.dump"), made("p2.saved", ""));
    let sentence = "192 bytes: 24 cells, top 22, 6 of 6 occupied heap cells live.\n";
    ends(&tool(&[&"save", &p2, &saved]), 0, &format!("Saved in {sentence}"));
    let file = fs::read(&saved).unwrap();
    assert_eq!(file[..8], [65, 0, 0, 0, 0, 0, 0, 0]);
    assert_eq!(file[176..], [192, 0, 0, 0, 6, 0, 0, 0, 24, 0, 0, 0, 1, 0, 0, 0]);
    assert_eq!(tool(&[&"save", &p2, &"-"]).stdout, file);

    let registers = "register 0: (66 67 68) (65 66 67)\nthe other registers are empty\n";
    let dump = made("loaded.dump", "");
    let loaded = tool(&[&"load", &saved, &"--dump", &dump]);
    ends(&loaded, 0, &format!("Loaded from {sentence}{registers}"));
    assert_eq!(fed(&file, &[&"load", &"-"]).stdout, loaded.stdout);
    assert_eq!(tool(&[&"show", &dump]).stdout, tool(&[&"show", &"--collected", &p2]).stdout);
    let longer = [b"site 12\n", &file[..]].concat();
    ends(&fed(&longer, &[&"load", &"-"]), 0, "Loaded from 200 bytes: 24 cells, top 22, ");
    assert_eq!(tool(&[&"save", &dump, &"-"]).stdout, file);
}

#[test]
fn what_a_batch_leaves_is_saved() {
    let (first, saved) = (tracked("examples/first.batch"), made("first.saved", ""));
    let quiet = tool(&[&"run", &first, &"--save", &saved]);
    assert_eq!(quiet.stdout, tool(&[&"run", &first]).stdout);
    ends(
        &tool(&[&"load", &saved]),
        0,
        "Loaded from 168 bytes: 20 cells, top 19, 3 of 3 occupied heap cells live.\n\
         register 2: 65 66\nregister 3: (65 66)\nthe other registers are empty\n",
    );
    // The dump is of the store as the calls left it, and the saved store is collected.
    let batch = made("dead.batch", "CAPACITY 20\nSYMBOL 0 65\nSYMBOL 0 66\n");
    let dump = made("dead.dump", "");
    ends(&tool(&[&"run", &batch, &"--save", &saved, &"--dump", &dump]), 0, "top 18\n");
    ends(&tool(&[&"check", &dump]), 0, "top 18, 1 of 2 occupied heap cells live");
    ends(&tool(&[&"load", &saved]), 0, "top 17, 1 of 1 occupied heap cells live");
    ends(&tool(&[&"run", &"--bytes", &"--save", &saved, &first]), 2, "run --bytes runs nothing");
}

#[test]
fn a_saved_store_that_is_refused_is_said_with_its_status() {
    let saved = tool(&[&"save", &tracked("examples/p2.dump"), &"-"]).stdout;
    let changed = |at: usize, byte: u8| {
        let mut file = saved.clone();
        file[at] = byte;
        file
    };
    for (file, sentence) in [
        (saved[..10].to_vec(), "-: refused with 30: the file is too short: it has 10 bytes"),
        (saved[..100].to_vec(), "-: refused with 31: the file is of no known edition: it is "),
        (saved[1..].to_vec(), "-: refused with 32: the file's distance is wrong: it is 192, "),
        (changed(180, 7), "it is 192, and for 7 heap cells must be 200\n"),
        (changed(184, 21), "-: refused with 33: the file's capacity is not allowed: it is 21, "),
        (changed(36, 20), "cell breaks its rule: cell 20, a heap cell, is damaged (rule 5): its "),
        (changed(48, 21), "-: refused with 34: the file's store is not collected: no register "),
    ] {
        let output = fed(&file, &[&"load", &"-"]);
        ends(&output, 3, sentence);
        assert!(output.stdout.is_empty());
    }
    ends(&fed(b"", &[&"load", &"-"]), 3, "it has 0 bytes, and a trailer has 16\n");
}

#[test]
fn files_that_cannot_be_saved_or_loaded() {
    let p2 = tracked("examples/p2.dump");
    let kept = made("kept.saved", "kept");
    let damaged = made("unsaved.dump", "TOP 16\n0 0 0\n");
    ends(&tool(&[&"save", &damaged, &kept]), 3, "No store has 3 words");
    assert_eq!(fs::read(&kept).unwrap(), b"kept");
    ends(&tool(&[&"load", &kept]), 3, "kept.saved: refused with 30: ");
    ends(&tool(&[&"save", &p2, &"/no/such/folder/x"]), 2, "cannot write /no/such/folder/x");
    ends(&tool(&[&"save", &p2]), 2, "save takes a dump file and the file to save to");
    ends(&tool(&[&"load"]), 2, "load takes one saved store, and here are 0");
    ends(&tool(&[&"load", &"no-such.saved"]), 2, "cannot read no-such.saved: no such file");
    ends(&tool(&[&"load", &tracked("examples")]), 2, "it is a folder");
    ends(&tool(&[&"load", &p2]), 3, "refused with 31: ");
}

#[test]
fn the_drawings_of_p2_are_those_in_the_docs() {
    let p2 = tracked("examples/p2.dump");
    let before = tool(&[&"draw", &"--title", &"P2 before collecting", &p2]);
    assert_eq!(before.stdout, fs::read(tracked("docs/p2-before.svg")).unwrap());
    let after = tool(&[&"draw", &"--collected", &"--title", &"P2 after collecting", &p2]);
    assert_eq!(after.stdout, fs::read(tracked("docs/p2-after.svg")).unwrap());
}

#[test]
fn lines_typed_at_the_prompt_are_answered() {
    let asked = fed(b"SYMBOL 0 65\nSWAP\nHEAD 1 2\nshow\n", &[&"ask", &"20"]);
    ends(&asked, 0, "SYMBOL 0 65               0          0   done; register 0: 65\n");
    ends(&asked, 0, "no call is named `SWAP`; HELP says what can be typed\n");
    ends(&asked, 0, "20 cells, top 17, 1 of 1 occupied heap cells live\n");
    ends(&fed(b"WRAP 3 0\nprint 3\n", &[&"ask"]), 0, "register 3: ()\n()\n");
    ends(&fed(b"type 3 (7) 8\nprint 3\n", &[&"ask"]), 0, "done; register 3: (7) 8\n(7) 8\n");
    ends(&fed(b"HEAD 1 2\n", &[&"ask", &"--strict"]), 1, "the register is empty");
    ends(&fed(b"TYPE 0 01\n", &[&"ask", &"--strict"]), 1, "13 at byte 0: ");
    ends(&fed(b"LIVE\n", &[&"ask", &"15"]), 3, "refused 1 0");
    ends(&fed(b"", &[&"ask"]), 0, "");
}

#[test]
fn a_reader_that_goes_away_is_no_fault() {
    let most = made("away.batch", format!("CAPACITY 16\n{}", "LIVE\n".repeat(1024)));
    let mut child = Command::new(env!("CARGO_BIN_EXE_zelmotar-cli"))
        .args([&"run" as &dyn AsRef<std::ffi::OsStr>, &most])
        .stdout(Stdio::piped())
        .stderr(Stdio::piped())
        .spawn()
        .unwrap();
    drop(child.stdout.take());
    let output = child.wait_with_output().unwrap();
    assert_eq!(output.status.code(), Some(0));
    assert!(output.stderr.is_empty());
}

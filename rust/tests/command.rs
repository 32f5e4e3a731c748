//! The command, run as a user runs it.
use std::io::Write;
use std::path::PathBuf;
use std::process::{Command, Stdio};

/// Exit status, standard output and standard error of the command on this input.
fn run(words: &[&str], input: &[u8]) -> (i32, String, String) {
    let mut child = Command::new(env!("CARGO_BIN_EXE_bombrezen"))
        .args(words)
        .stdin(Stdio::piped())
        .stdout(Stdio::piped())
        .stderr(Stdio::piped())
        .spawn()
        .expect("the command runs");
    // A command that does not read its input may have closed it.
    let _ = child.stdin.take().expect("a pipe").write_all(input);
    let output = child.wait_with_output().expect("the command ends");
    let text = |bytes: Vec<u8>| String::from_utf8_lossy(&bytes).into_owned();
    (output.status.code().unwrap_or(-1), text(output.stdout), text(output.stderr))
}

/// A file with this vocabulary.
fn file(name: &str, text: &[u8]) -> String {
    let path = PathBuf::from(env!("CARGO_TARGET_TMPDIR")).join(name);
    std::fs::write(&path, text).expect("a file can be written");
    path.display().to_string()
}

const V: &[u8] = b"1 'a' 1\n2 'b' 1\n3 'ab' 2\n4 'abcd' 4\n5 'bc' 2\n";

#[test]
fn encodes_and_decodes() {
    let v = file("v_encode.txt", V);
    let options = ["--vocab", &v, "--partial"];
    assert_eq!(run(&[&["encode", "abbc"], &options[..]].concat(), b""), (0, "3 5\n".into(), "".into()));
    assert_eq!(run(&[&["encode", "--show"], &options[..]].concat(), b"aab"), (0, "a|ab\n1 3\n".into(), "".into()));
    assert_eq!(run(&[&["decode", "4", "1"], &options[..]].concat(), b""), (0, "abcda".into(), "".into()));
    let (status, out, error) = run(&[&["encode", "abc"], &options[..]].concat(), b"");
    assert_eq!((status, out.as_str()), (1, ""));
    assert!(error.contains("no token for byte 0x63 at byte offset 2"), "{error}");
    let (status, _, error) = run(&[&["decode", "3", "0"], &options[..]].concat(), b"");
    assert!(status == 1 && error.contains("missing token ID 0 at token index 1"), "{error}");
}

#[test]
fn what_is_encoded_decodes_to_itself() {
    let every: Vec<u8> = (0..=255).collect();
    let (status, ids, _) = run(&["encode"], &every);
    assert_eq!(status, 0);
    assert_eq!(run(&["decode", "--lossy"], ids.as_bytes()).1, String::from_utf8_lossy(&every));
    assert!(run(&["decode", "--text"], ids.as_bytes()).2.contains("not UTF-8"));
}

#[test]
fn streams() {
    let (status, whole, _) = run(&["encode"], b"cleared for takeoff, wind calm");
    assert_eq!(status, 0);
    let (status, streamed, _) = run(&["stream"], b"cleared for takeoff, wind calm");
    assert_eq!((status, streamed.split_whitespace().collect::<Vec<_>>()), (0, whole.split_whitespace().collect()));
    let v = file("v_stream.txt", V);
    let (status, out, error) = run(&["stream", "--vocab", &v, "--partial"], b"abc");
    assert!((status, out.as_str()) == (1, "3\n") && error.contains("0x63 at byte offset 2"), "{out} {error}");
}

/// The bytes looked at go to standard error, so that the ids on standard output stay as they are.
#[test]
fn tells_the_bytes_looked_at() {
    let v = file("v_looked.txt", V);
    let with = |words: &[&str], input: &[u8]| run(&[words, &["--looked", "--vocab", &v, "--partial"]].concat(), input);
    assert_eq!(with(&["encode", "abbc"], b""), (0, "3 5\n".into(), "looked at 5 bytes for 2 ids\n".into()));
    assert_eq!(with(&["encode"], b"").2, "looked at 0 bytes for 0 ids\n");
    assert_eq!(with(&["encode", "--show"], b"aab"), (0, "a|ab\n1 3\n".into(), "looked at 4 bytes for 2 ids\n".into()));
    let (status, _, error) = with(&["encode", "abc"], b"");
    assert!(status == 1 && !error.contains("looked"), "{error}");
    assert_eq!(with(&["stream"], b"abbc"), (0, "3 5\n".into(), "looked at 5 bytes for 2 ids\n".into()));
    let (status, out, error) = with(&["stream"], b"abc");
    assert!((status, out.as_str()) == (1, "3\n") && error.starts_with("looked at 3 bytes for 1 ids\n"), "{out} {error}");
    assert_eq!(run(&["stream"], b"wind calm").2, "");
}

#[test]
fn checks() {
    let (status, out, _) = run(&["check", "--partial", &file("v_check.txt", V)], b"");
    assert_eq!(status, 0);
    for counts in ["5 tokens", "5 nodes", "10 blob bytes", "512 table words"] {
        assert!(out.contains(counts), "{out}");
    }
    let (status, _, error) = run(&["check", &file("v_full.txt", V)], b"");
    assert!(status == 1 && error.contains("byte 0x00: a byte has no token of its own (number 20)"), "{error}");
    let (status, _, error) = run(&["check", &file("bad.txt", b"1 'a' 1\n2 'b\\q' 1\n")], b"");
    assert!(status == 1 && error.contains("line 2: the literal") && error.contains("2 | 2 'b\\q' 1"), "{error}");
}

/// The edition is 1 where none is given; another one than 1 and 2 is told in words, and what is no number with the usage.
#[test]
fn takes_the_edition() {
    let path = file("edition_2.txt", b"1 '\\01' 1\n2 '\\U0001f6eb' 4\n");
    let options = ["--partial", "--vocab", &path];
    let with = |words: &[&str], input: &[u8]| run(&[words, &options[..]].concat(), input);
    assert_eq!(with(&["encode", "--edition", "2"], b"\xf0\x9f\x9b\xab\x01"), (0, "2 1\n".into(), "".into()));
    assert_eq!(with(&["decode", "--edition", "2", "1"], b""), (0, "\u{1}".into(), "".into()));
    for (command, input) in [("encode", "a"), ("decode", "1"), ("stream", "a"), ("demo", "")] {
        let (status, out, error) = with(&[command], input.as_bytes());
        assert!(
            (status, out.as_str()) == (1, "") && error.contains("line 1: ") && error.contains("(number 14)"),
            "{command}: {error}"
        );
        let (status, out, error) = with(&[command, "--edition", "3"], input.as_bytes());
        let words = format!("bombrezen: {path}: the vocabulary's edition is neither 1 nor 2 (number 34)\n");
        assert_eq!((status, out.as_str(), error), (1, "", words), "{command}");
        let (status, _, error) = run(&[command, "--edition", "0"], input.as_bytes());
        assert!(status == 1 && error.contains("neither 1 nor 2 (number 34)"), "{command}: {error}");
    }
    let (status, out, _) = run(&["check", "--partial", "--edition", "2", &path], b"");
    assert!(status == 0 && out.starts_with("accepted as partial, edition 2: 27 bytes of text\n"), "{out}");
    let (status, out, _) = run(&["check", "--partial", &file("v_edition.txt", V)], b"");
    assert!(status == 0 && out.starts_with("accepted as partial, edition 1: 45 bytes of text\n"), "{out}");
    for (words, told) in [
        (&["encode", "--edition", "x"][..], "\"x\" is none\nusage:"),
        (&["check", "--edition", "4294967296", &path], "up to 4294967295, and \"4294967296\" is none\nusage:"),
        (&["decode", "--edition"], "--edition needs a number\nusage:"),
    ] {
        let (status, out, error) = run(words, b"");
        assert!((status, out.as_str()) == (2, "") && error.contains(told), "{error}");
    }
}

/// The first bad byte of a text is told by line, column and offset. A column is a character, and the byte's line is shown around it.
#[test]
fn shows_where_the_first_bad_byte_is() {
    let long = [&b"1 '"[..], "é".repeat(300).as_bytes(), b"\xff", "a".repeat(300).as_bytes(), b"' 1\n"].concat();
    let shown = format!("     1 | ..{}\\xff{}..\n", "é".repeat(100), "a".repeat(196));
    for (name, text, place, line) in [
        ("two_places", &b"1 'a' 1\n2 '\xff' 1\n3 '\x80' 1\n"[..], "line 2, column 4, byte offset 11", "     2 | 2 '\\xff' 1\n"),
        (
            "characters",
            b"0\n1 '\xc3\xa9\xe2\x82\xac\xf0\x9f' 9",
            "line 2, column 6, byte offset 10",
            "     2 | 1 'é€\\xf0\\x9f' 9\n",
        ),
        ("cut", b"1 'a' 1\n\xf0\x9f", "line 2, column 1, byte offset 8", "     2 | \\xf0\\x9f\n"),
        ("broken_off", b"\xe2\x82A", "line 1, column 1, byte offset 0", "     1 | \\xe2\\x82A\n"),
        ("long_line", &long, "line 1, column 304, byte offset 603", &shown),
    ] {
        let path = file(&format!("bad_{name}.txt"), text);
        let error = format!("bombrezen: {path}: {place}: the text is not UTF-8 (number 2)\n{line}");
        assert_eq!(run(&["check", "--partial", &path], b""), (1, "".into(), error));
    }
}

#[test]
fn misuse_is_told() {
    for words in [&[][..], &["fly"], &["encode", "--vocab"], &["encode", "--loud"], &["check"]] {
        let (status, out, error) = run(words, b"");
        assert!(status == 2 && out.is_empty() && error.contains("usage:"), "{words:?}: {error}");
    }
    let (status, _, error) = run(&["check", "no such file"], b"");
    assert!(status == 1 && error.contains("no such file"), "{error}");
    assert!(run(&["decode", "12x"], b"").2.contains("\"12x\" is no id"));
    assert!(run(&["demo"], b"").1.contains("the same"));
}

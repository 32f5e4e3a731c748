//! A C program over the header, built and run.
use std::path::Path;
use std::process::Command;

const WANTED: &str = "\
load 8: 1 1 0 0 0 0
load 2: 2 3 0 0 0 0
load 0: 0 0 1 2 2 256
ab 0: 1 looked 2
load 12: 1 1 0 0 0 0
load 34: 0 0 0 0 0 0
load 0: 0 0 5 5 10 512
abcd 0: 4 looked 4
aab 0: 1 3 looked 4
abc 22: 3 (offset 2, byte 99) looked 3
decode 0: abcda
ab 0: looked 0
b 0: 3 looked 3
c 0: 5 looked 2
end 0: looked 0
abc 0: looked 0
end 22: 3 (offset 2, byte 99) looked 3
load 0: 0 0 1 1 1 256
aa 0: 1 1 looked 3
a 0: 1 looked 1
a 0: 1 looked 1
end 0: looked 0
";

/// The compiler, told to refuse what it warns of.
fn compiler(top: &Path) -> Command {
    let mut command = Command::new("cc");
    command.args(["-std=c11", "-Wall", "-Wextra", "-Werror", "-O1", "-I"]).arg(top.join("include"));
    command.arg(top.join("rust/tests/use.c"));
    command
}

#[test]
fn a_c_program_uses_the_header() {
    let top = Path::new(env!("CARGO_MANIFEST_DIR")).join("..");
    let program = Path::new(env!("CARGO_TARGET_TMPDIR")).join("use_rwkv_tokenizer");
    let built = compiler(&top).arg(top.join("target/staticlib/librwkv_tokenizer.a")).arg("-o").arg(&program).status();
    match built {
        Err(error) if error.kind() == std::io::ErrorKind::NotFound => return println!("skipped: there is no C compiler `cc`"),
        built => assert!(built.is_ok_and(|status| status.success()), "the C program does not build"),
    }
    let run = Command::new(&program).output().expect("the C program runs");
    assert!(run.status.success());
    assert_eq!(String::from_utf8_lossy(&run.stdout), WANTED);
}

#[test]
fn a_compiler_warns_of_a_shorter_report() {
    let top = Path::new(env!("CARGO_MANIFEST_DIR")).join("..");
    for (cells, warns) in [("-DCELLS=3", true), ("-DCELLS=4", false), ("-DCELLS=5", false)] {
        match compiler(&top).args([cells, "-S", "-o", "/dev/null"]).output() {
            Err(error) if error.kind() == std::io::ErrorKind::NotFound => {
                return println!("skipped: there is no C compiler `cc`");
            }
            built => assert_eq!(built.is_ok_and(|output| !output.status.success()), warns, "{cells}"),
        }
    }
}

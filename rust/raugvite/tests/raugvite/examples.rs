//! The two examples, as programs: what they print and with which status they end.
use crate::texts::{job, root, SAME};
use std::path::PathBuf;
use std::process::{Command, Output};

// Where cargo puts them, beside this test; it makes them for `cargo test`, but not for one test binary named alone.
fn example(name: &str) -> PathBuf {
    let own = std::env::current_exe().unwrap();
    let path = own.ancestors().nth(2).unwrap().join("examples").join(name);
    assert!(path.exists(), "{} is not there: make it with cargo build --examples", path.display());
    path
}

fn ran(name: &str, words: &[PathBuf]) -> (i32, String, String) {
    let Output { status, stdout, stderr } = Command::new(example(name)).args(words).output().unwrap();
    let text = |bytes| String::from_utf8(bytes).unwrap();
    (status.code().unwrap(), text(stdout), text(stderr))
}

fn file(name: &str, text: &str) -> PathBuf {
    let path = std::env::temp_dir().join(format!("raugvite-example-{}-{name}", std::process::id()));
    std::fs::write(&path, text).unwrap();
    path
}

#[test]
fn json_and_its_statuses() {
    let program = file("same", SAME);
    let with = |name: &str, numbers| [program.clone(), file(name, &job("?e1 ?e2", "'No", "", numbers))];
    for (name, numbers, status, begins) in [
        ("whole", [4, 7, 3], 0, r#"{"word":"whole","transitions":7,"lines":[{"number":1,"#),
        ("cut", [3, 7, 3], 1, r#"{"word":"cut","#),
        ("stop", [4, 7, 2], 2, r#"{"word":"stop22","#),
        ("refused", [4, 7, 257], 3, r#"{"word":"refused","text":"job","number":12,"#),
    ] {
        let paths = with(name, numbers);
        let (code, out, err) = ran("json", &paths);
        assert_eq!((code, &err[..]), (status, ""));
        assert!(out.starts_with(begins) && out.ends_with("}\n") && out.lines().count() == 1, "{out}");
        std::fs::remove_file(&paths[1]).unwrap();
    }
    let (code, out, err) = ran("json", &[program.clone(), root().join("no such file")]);
    assert_eq!((code, &out[..]), (4, ""));
    assert!(err.contains("no such file: "), "{err}");
    assert_eq!(ran("json", std::slice::from_ref(&program)), (4, "".into(), "usage: json PROG JOB\n".into()));
    std::fs::remove_file(program).unwrap();
}

#[test]
fn list_says_where_a_text_is_refused() {
    let data = root().join("crates/ura/data");
    let (code, out, err) = ran("list", &[data.join("prog.tsg"), data.join("job.txt")]);
    assert_eq!((code, out.lines().next(), &err[..]), (0, Some("cut 5 112"), ""));
    let broken = file("broken", "(define f [e.x]\n  e.y)\n");
    let (code, out, err) = ran("list", &[broken.clone(), data.join("job.txt")]);
    assert_eq!((code, &out[..]), (0, "refused p 9 18\n"));
    assert_eq!(err, format!("{}:2:3: this variable is not in reach\n", broken.display()));
    std::fs::remove_file(broken).unwrap();
}

//! The cases of README and of the scope.
use crate::texts::{job, read, DUB, SAME};
use raugvite::{list, list_whole, run, try_list, try_run, Expression, Listed, NotWhole, Ran, Stop};

// P1 to P11: the program, the job and what is printed.
fn cases() -> Vec<(&'static str, String, String)> {
    let lines = ["1 2 ?e1=(cons ?e3 ?e4)\n", "2 3 ?e1=?a5 ?e2=(cons ?e6 ?e7)\n", "3 4 ?e1=?a5 ?e2=?a8 # ?a5 ?a8\n"];
    let first = |word: &str, count: usize| format!("{word}\n{}", lines[..count].concat());
    let same = |inputs, output, numbers, due: String| (SAME, job(inputs, output, "", numbers), due);
    let dub = |inputs, output, neq, due: &str| (DUB, job(inputs, output, neq, [1, 1, 1]), due.to_string());
    vec![
        same("?e1 ?e2", "'No", [4, 7, 3], first("whole 3 7", 3)),
        same("?e1 ?e2", "'Yes", [4, 7, 3], "whole 1 7\n1 4 ?e1=?a8 ?e2=?a8\n".into()),
        same("?e1 ?e2", "'No", [3, 7, 3], first("cut 2 5", 2)),
        same("?e1 ?e2", "'No", [0, 7, 3], first("cut 0 0", 0)),
        same("?e1 ?e2", "'No", [4, 6, 3], first("stop23 2 6", 2)),
        same("?e1 ?e2", "'No", [4, 7, 2], first("stop22 2 7", 2)),
        same("?e1 ?e1", "'Yes", [4, 7, 3], "whole 1 5\n1 4 ?e1=?a4\n".into()),
        dub("?e1", "?e1", "", "whole 0 1\n"),
        dub("?e1", "?e2", "", "whole 1 1\n1 1 ?e2=(cons ?e1 'K)\n"),
        dub("?a1", "(cons 'B 'K)", "['B ?a1]", "whole 0 1\n"),
        dub("?a1", "(cons 'B 'K)", "[?a1 ?a1]", "whole 0 0\n"),
    ]
}

#[test]
fn p1_to_p11() {
    for (program, job, due) in cases() {
        let listing = list(program.as_bytes(), job.as_bytes());
        assert_eq!(String::from_utf8_lossy(listing.text()), due, "{job}");
        assert_eq!(format!("{listing}\n"), due);
    }
}

// Who asks for all lines gets them of a whole listing alone.
#[test]
fn less_than_whole_is_not_whole() {
    for (program, job, due) in cases() {
        let (program, job) = (program.as_bytes(), job.as_bytes());
        let listing = list(program, job);
        let (whole, cut) = (due.starts_with("whole"), due.starts_with("cut"));
        assert_eq!(listing.is_whole(), whole);
        assert_eq!(listing.whole_lines().is_some(), whole);
        assert_eq!(listing.lines_within_steps().is_some(), whole || cut);
        assert_eq!(listing.lines_found().len(), due.lines().count() - 1);
        assert_eq!(try_list(program, job).as_ref(), Ok(&listing));
        match list_whole(program, job) {
            Ok(all) => {
                assert!(whole);
                assert_eq!((all.listing(), Some(all.lines())), (&listing, listing.whole_lines()));
                assert_eq!(all.transitions(), listing.answer().transitions());
                assert_eq!(all.printed_lines().count(), all.lines().len());
                assert_eq!(all.to_string(), listing.to_string());
                assert_eq!(all.into_lines(), listing.lines_found());
            }
            Err(NotWhole::Cut(less)) => assert!(cut && less == listing),
            Err(NotWhole::Stopped(stop, less)) => {
                assert!(due.starts_with(&format!("stop{}", stop.number())) && less == listing);
            }
            Err(NotWhole::Refused(refusal)) => panic!("{refusal}"),
        }
    }
}

#[test]
fn why_a_listing_is_not_whole() {
    let said = |numbers| list_whole(SAME.as_bytes(), job("?e1 ?e2", "'No", "", numbers).as_bytes()).unwrap_err().to_string();
    assert_eq!(said([3, 7, 3]), "the listing is cut: some files run longer than the job's steps");
    let over = "the listing is stopped by number 22: the listing has more lines than the job's table, or over 16384 nodes in them";
    assert_eq!(said([4, 7, 2]), over);
    assert_eq!(said([4, 6, 3]), "the listing is stopped by number 23: the walk makes more transitions than the job's walk allows");
    assert!(said([1001, 7, 3]).starts_with("the job is refused by number 12 at byte "));
}

#[test]
fn over_4096_nodes() {
    let program = b"(define f [e.x] (call f [(cons e.x e.x)]))";
    let job = job("?e1", "?e2", "", [1000, 1000, 1]);
    let listing = list(program, job.as_bytes());
    assert!(matches!(listing.answer(), Listed::Stopped { stop: Stop::Nodes, lines: 0, .. }), "{listing}");
    assert_eq!(run(program, job.replace("?e1", "'A").as_bytes()).answer(), Ran::Stopped);
}

#[test]
fn the_loader() {
    let texts = read("crates/ura/data/prog.tsg", "crates/ura/data/job.txt");
    let listing = list(&texts.program, &texts.job);
    let due = "cut 5 112\n\
               1 19 ?a1='0 ?a2='0 ?e3=(cons ?a9 ?a12) # ?a9 '0\n\
               2 19 ?a1='0 ?e3=(cons '0 ?a12) # ?a2 '0\n\
               3 15 ?a1='0 ?e3=?a6 # ?a2 '0\n\
               4 19 ?a2='0 ?e3=(cons '0 ?a12) # ?a1 '0\n\
               5 15 ?a2='0 ?e3=?a6 # ?a1 '0";
    assert_eq!(listing.to_string(), due);
    assert_eq!(listing.lines_found()[2].to_string(), "(in (cons '1 (cons '0 (cons ?a2 ?a6)))) (out 'Loaded) (neq [?a2 '0])");

    let file = job("(cons '1 (cons '1 (cons '0 (cons '1 (cons '1 'end)))))", "'Loaded", "", [99, 1, 1]);
    let forwards = run(&texts.program, file.as_bytes());
    assert_eq!(forwards.text(), b"value 25 'Loaded\n");
    assert_eq!(forwards.answer(), Ran::Value { steps: 25, length: 1 });
    assert_eq!(forwards.into_value(), Some(Expression::Symbol("Loaded".into())));
}

// The lines of the paper's figure 14, in its notation; the numbers of the variables are the same.
#[test]
fn figure_14() {
    let lines = |name: &str| {
        let texts = read(&format!("bench/{name}.tsg"), &format!("bench/{name}.job"));
        let whole = list_whole(&texts.program, &texts.job).unwrap();
        let mut shown: Vec<String> = whole.printed_lines().map(|l| format!("{l:#}").splitn(3, ' ').nth(2).unwrap().to_string()).collect();
        shown.sort();
        shown
    };
    let first = ["'A:'B:'C:?a22", "'A:'B:?a16", "'A:?a10", "'B:'C:?a16", "'B:?a10", "'C:?a10", "?a4"];
    assert_eq!(lines("fig14a"), first.map(|value| format!("?e1={value}")));
    let second = ["'A:'A:'A:?e20:?e21", "'A:'A:?a19:?e15 # ?a19 'A", "'A:?a13:?e9 # ?a13 'A", "?a7:?e3 # ?a7 'A"];
    assert_eq!(lines("fig14b"), second.map(|value| format!("?e1={value}")));
}

#[test]
fn runs() {
    let list = b"(define f [e.l] (if (cons? e.l e.h e.t a.n) (call f [e.t]) a.n))";
    let with_steps = |steps| run(list, job("(cons 'A (cons 'B 'C))", "'A", "", [steps, 1, 1]).as_bytes());
    assert_eq!(with_steps(6).to_string(), "value 6 'C");
    assert_eq!(with_steps(6).answer().to_string(), "value 6");
    assert_eq!((with_steps(5).to_string(), with_steps(5).answer(), with_steps(5).value()), ("notwithin".into(), Ran::NotWithin, None));
    let variable = job("?e1", "'A", "", [5, 1, 1]);
    let refusal = try_run(list, variable.as_bytes()).unwrap_err();
    assert_eq!((refusal.number, refusal.offset), (10, 9));
    assert_eq!(try_run(list, job("'A", "'A", "", [5, 1, 1]).as_bytes()).unwrap().text(), b"value 2 'A\n");
}

// A value of 1,023 nodes, whose text has more than the first page.
#[test]
fn a_long_value() {
    let program = b"(define f [e.n e.x] (if (cons? e.n e.h e.t a.n) (call f [e.t (cons e.x e.x)]) e.x))";
    let nine = "(cons '1 ".repeat(9) + "'0" + &")".repeat(9);
    let found = run(program, job(&format!("{nine} 'abcdefghijklmnop"), "'A", "", [99, 1, 1]).as_bytes());
    assert_eq!(found.answer(), Ran::Value { steps: 20, length: 1023 });
    assert!(found.text().len() > 8192);
    assert_eq!(found.to_string(), format!("value 20 {}", found.value().unwrap()));
}

// A line is a class of its own, in the notation of jobs: asked for, it has one line, without a binding, and takes the line's steps.
#[test]
fn a_line_as_a_job() {
    let texts = ["fig14a", "fig14b"].map(|name| read(&format!("bench/{name}.tsg"), &format!("bench/{name}.job")));
    let same = job("?e1 ?e2", "'No", "", [4, 7, 3]).into_bytes();
    let all = texts.iter().map(|t| (&t.program[..], &t.job[..])).chain([(SAME.as_bytes(), &same[..])]);
    for (program, job) in all {
        for line in list_whole(program, job).unwrap().lines() {
            let alone = format!("(job {line} (steps {steps}) (walk {steps}) (table 1))", steps = line.steps);
            let again = list_whole(program, alone.as_bytes()).unwrap();
            assert_eq!(again.lines(), std::slice::from_ref(line));
            assert_eq!(again.printed_lines().map(|l| l.bindings.len()).collect::<Vec<_>>(), [0]);
            assert_eq!(again.transitions(), line.steps);
        }
    }
}

// What a caller keeps can go to another thread and outlive the texts.
#[test]
fn owned() {
    fn is_owned<T: Send + Sync + 'static>() {}
    is_owned::<raugvite::Listing>();
    is_owned::<raugvite::Whole>();
    is_owned::<raugvite::Run>();
    is_owned::<NotWhole>();
}

//! Lent storage: too short, longer than it must be, and what is left in it.
use crate::texts::{generated, job, read, DUB, SAME};
use raugvite::{
    list, list_in, list_lengths, list_print_in, list_print_sampled_in, print_list, print_run, print_sampled, run, run_in, run_lengths,
};
use raugvite::{sample_in, sample_length, Listed, Ran, Sampled};

// Numbers that look like anything.
fn garbage(length: usize) -> Vec<u16> {
    (0..length as u32).map(|i| (i.wrapping_mul(2654435761) >> 13) as u16).collect()
}

fn p1() -> (Vec<u8>, Vec<u8>) {
    (SAME.into(), job("?e1 ?e2", "'No", "", [4, 7, 3]).into_bytes())
}

#[test]
fn the_least_lengths() {
    assert_eq!((list_lengths(), run_lengths(), sample_length()), ((8194, 17408), (8194, 4096), 4096));
}

// 20 comes before all else and touches nothing.
#[test]
fn storage_too_short() {
    let (program, job) = p1();
    let shorter = |(w, a): (usize, usize)| [(w - 1, a), (w, a - 1), (0, a), (w, 0), (0, 0)];
    // Of a program that is accepted, and of one that would be refused.
    let texts = [&program[..], b""];
    for (text, (w, a)) in texts.iter().flat_map(|text| shorter(list_lengths()).map(|lengths| (*text, lengths))) {
        let (mut work, mut answer) = (garbage(w), garbage(a));
        assert_eq!(list_in(text, &job, &mut work, &mut answer), Listed::Short);
        assert!(work == garbage(w) && answer == garbage(a));
        let mut page = [b'?'; 20];
        assert_eq!(list_print_in(text, &job, &mut work, &mut answer, &mut page), (Listed::Short, 15));
        assert!(work == garbage(w) && answer == garbage(a));
        assert_eq!(&page, b"refused - 20 0\n\0\0\0\0\0");
        assert_eq!(print_list(text, &job, Listed::Short, &answer), b"refused - 20 0\n");
        let mut page = [b'?'; 4];
        assert_eq!(list_print_in(text, &job, &mut work, &mut answer, &mut page), (Listed::Short, 4));
        assert_eq!(&page, b"refu");
    }
    for (w, a) in shorter(run_lengths()) {
        let (mut work, mut answer) = (garbage(w), garbage(a));
        assert_eq!(run_in(&program, &job, &mut work, &mut answer), Ran::Short);
        assert!(work == garbage(w) && answer == garbage(a));
        assert_eq!(print_run(&program, &job, Ran::Short, &answer), b"refused - 20 0\n");
    }
}

#[test]
fn storage_longer_than_it_must_be() {
    let (program, job) = p1();
    let (w, a) = list_lengths();
    let (mut work, mut answer) = (garbage(w + 5), garbage(a + 7));
    let listed = list_in(&program, &job, &mut work, &mut answer);
    assert_eq!(listed, Listed::Whole { lines: 3, transitions: 7 });
    assert!(work.iter().all(|&cell| cell == 0));
    // The third line: 4 steps, two cells of inputs, one of output, one non-equality.
    let third = [4, 2, 1, 1, 4 * 5 + 3, 4 * 8 + 3, 1, 4 * 5 + 3, 4 * 8 + 3];
    let first = 4 + 4 + 1;
    let second = 4 + 4 + 1;
    assert_eq!(answer[first + second..][..9], third);
    assert!(answer[first + second + 9..].iter().all(|&cell| cell == 0));
}

#[test]
fn storage_of_a_sample() {
    let (program, job) = p1();
    let (w, a) = list_lengths();
    let (mut work, mut answer) = (garbage(w), garbage(a));
    let _ = list_in(&program, &job, &mut work, &mut answer);
    let mut sample = garbage(4103);
    // The first line: (cons ?e3 ?e4) and ?e2, new atoms by first standing.
    assert_eq!(sample_in(&answer, 1, &mut sample), Sampled::Done { inputs: 4, output: 1 });
    assert_eq!(sample[..5], [4, 4 * 1024 + 1, 4 * 1025 + 1, 4 * 1026 + 1, 1]);
    assert!(sample[5..].iter().all(|&cell| cell == 0));
    for (line, length, due) in
        [(1, 4095, Sampled::Short), (4, 4095, Sampled::Short), (0, 4096, Sampled::Absent), (4, 4096, Sampled::Absent)]
    {
        let mut sample = garbage(length);
        assert_eq!(sample_in(&answer, line, &mut sample), due);
        assert!(sample == garbage(length));
    }
    assert_eq!(sample_in(&answer, usize::MAX, &mut sample), Sampled::Absent);
    assert_eq!(sample_in(&[], 1, &mut sample), Sampled::Absent);
}

// The first page with samples, and all of the text.
#[test]
fn pages_with_samples() {
    let texts = read("crates/long_listing/data/prog.tsg", "crates/long_listing/data/job.txt");
    let (w, a) = list_lengths();
    let (mut work, mut answer) = (garbage(w), garbage(a));
    let listing = list(&texts.program, &texts.job);
    let due = listing.sampled_text();
    assert!(due.len() > listing.text().len());
    for room in [0, 1, 100, 4096, due.len(), due.len() + 1] {
        let mut page = vec![b'?'; room];
        let (said, bytes) = list_print_sampled_in(&texts.program, &texts.job, &mut work, &mut answer, &mut page);
        assert_eq!((said, bytes), (listing.answer(), room.min(due.len())));
        assert!(page[..bytes] == due[..bytes] && page[bytes..].iter().all(|&b| b == 0));
    }
    assert!(print_sampled(&texts.program, &texts.job, listing.answer(), &answer) == due);
}

#[test]
fn a_refusal_leaves_the_answer() {
    let (w, a) = list_lengths();
    let (mut work, mut answer) = (garbage(w), garbage(a));
    assert!(matches!(list_in(b"(", b"", &mut work, &mut answer), Listed::Refused(_)));
    assert!(work.iter().all(|&cell| cell == 0) && answer == garbage(a));
    let mut work = garbage(w);
    assert!(matches!(run_in(DUB.as_bytes(), b"(", &mut work, &mut answer), Ran::Refused(_)));
    assert!(work.iter().all(|&cell| cell == 0) && answer == garbage(a));
}

// In storage of the thread's own and in lent storage, one text after another.
#[test]
fn lent_and_own_storage_say_the_same() {
    let ((w, a), (rw, ra)) = (list_lengths(), run_lengths());
    for texts in generated(200) {
        let (mut work, mut answer) = (garbage(w), garbage(a));
        let listed = list_in(&texts.program, &texts.job, &mut work, &mut answer);
        let listing = list(&texts.program, &texts.job);
        assert_eq!(listing.answer(), listed, "{}", texts.name);
        assert!(print_list(&texts.program, &texts.job, listed, &answer) == listing.text(), "{}", texts.name);
        let (mut work, mut answer) = (garbage(rw), garbage(ra));
        let ran = run_in(&texts.program, &texts.job, &mut work, &mut answer);
        let forwards = run(&texts.program, &texts.job);
        assert_eq!(forwards.answer(), ran, "{}", texts.name);
        assert!(print_run(&texts.program, &texts.job, ran, &answer) == forwards.text(), "{}", texts.name);
        assert_eq!(forwards.value().is_some(), matches!(ran, Ran::Value { .. }));
    }
}

// 143,132 bytes: the first page, and two more behind it. The text was made by another implementation.
#[test]
fn a_listing_of_many_pages() {
    let texts = read("crates/long_listing/data/prog.tsg", "crates/long_listing/data/job.txt");
    let due = std::fs::read(crate::texts::root().join("crates/long_listing/stdout")).unwrap();
    assert!(due.len() > 2 * 65536);
    assert!(list(&texts.program, &texts.job).into_text() == due);
    let (w, a) = list_lengths();
    let (mut work, mut answer) = (garbage(w), garbage(a));
    for room in [0, 1, 100, 4096, due.len(), due.len() + 1] {
        let mut page = vec![b'?'; room];
        let (_, bytes) = list_print_in(&texts.program, &texts.job, &mut work, &mut answer, &mut page);
        assert_eq!(bytes, room.min(due.len()));
        assert!(page[..bytes] == due[..bytes] && page[bytes..].iter().all(|&b| b == 0));
    }
}

#[test]
fn threads_have_storage_of_their_own() {
    let (program, job) = p1();
    let due = list(&program, &job);
    std::thread::scope(|scope| {
        for _ in 0..4 {
            scope.spawn(|| (0..50).for_each(|_| assert_eq!(list(&program, &job), due)));
        }
    });
}

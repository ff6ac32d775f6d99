//! The functions of the archive, and what the boundary asks for: a slice is a pointer and a length, and Rust's slices have all that the
//! functions need. An empty slice's pointer is not read.

/// The least lengths of `work` and `answer`, in cells.
macro_rules! lengths {
    ($name:ident, $work:ident, $answer:ident) => {
        pub fn $name() -> (usize, usize) {
            extern "C" {
                fn $work() -> usize;
                fn $answer() -> usize;
            }
            // SAFETY: they take nothing and read nothing.
            unsafe { ($work(), $answer()) }
        }
    };
}

/// An entry, with a page for the beginning of the text or without: the number of its answer, and what stands in `said` beside it.
macro_rules! entry {
    ($name:ident, $function:ident, $said:literal $(, $page:ident)?) => {
        pub fn $name(program: &[u8], job: &[u8], work: &mut [u16], answer: &mut [u16] $(, $page: &mut [u8])?) -> (usize, [usize; $said]) {
            extern "C" {
                fn $function(
                    program: *const u8,
                    program_length: usize,
                    job: *const u8,
                    job_length: usize,
                    work: *mut u16,
                    work_length: usize,
                    answer: *mut u16,
                    answer_length: usize,
                    said: *mut usize,
                    said_length: usize,
                    $($page: *mut u8, page_length: usize,)?
                ) -> usize;
            }
            let mut said = [0usize; $said];
            let (p, j) = (program.as_ptr(), job.as_ptr());
            let (w, a, s) = (work.as_mut_ptr(), answer.as_mut_ptr(), said.as_mut_ptr());
            // SAFETY: each pointer comes with the length of its slice, which it is aligned for; slices that are written overlap no other.
            let number = unsafe { $function(p, program.len(), j, job.len(), w, work.len(), a, answer.len(), s, said.len() $(, $page.as_mut_ptr(), $page.len())?) };
            (number, said)
        }
    };
}

/// The least length of the storage for a sample, in cells.
pub fn sample_cells() -> usize {
    extern "C" {
        fn raugvite_sample_cells() -> usize;
    }
    // SAFETY: it takes nothing and reads nothing.
    unsafe { raugvite_sample_cells() }
}

/// The sample of a line: the number of the answer, the cells of the sample's inputs and those of its output.
pub fn sample(answer: &[u16], line: usize, sample: &mut [u16]) -> (usize, [usize; 2]) {
    extern "C" {
        fn raugvite_sample(
            answer: *const u16,
            answer_length: usize,
            line: usize,
            sample: *mut u16,
            sample_length: usize,
            said: *mut usize,
            said_length: usize,
        ) -> usize;
    }
    let mut said = [0usize; 2];
    let (a, c, s) = (answer.as_ptr(), sample.as_mut_ptr(), said.as_mut_ptr());
    // SAFETY: each pointer comes with the length of its slice, which it is aligned for; those that are written overlap no other.
    let number = unsafe { raugvite_sample(a, answer.len(), line, c, sample.len(), s, said.len()) };
    (number, said)
}

/// The text of an answer, given by its number and `said`, from the byte `from` on, as far as `out` has room: how many bytes they are.
macro_rules! text {
    ($name:ident, $function:ident, $said:literal) => {
        pub fn $name(program: &[u8], job: &[u8], answer: (usize, [usize; $said]), cells: &[u16], from: usize, out: &mut [u8]) -> usize {
            extern "C" {
                fn $function(
                    program: *const u8,
                    program_length: usize,
                    job: *const u8,
                    job_length: usize,
                    number: usize,
                    said: *const usize,
                    said_length: usize,
                    cells: *const u16,
                    cells_length: usize,
                    from: usize,
                    out: *mut u8,
                    out_length: usize,
                ) -> usize;
            }
            let (number, said) = answer;
            let (p, j, s, c, o) = (program.as_ptr(), job.as_ptr(), said.as_ptr(), cells.as_ptr(), out.as_mut_ptr());
            // SAFETY: each pointer comes with the length of its slice, which it is aligned for; the one that is written overlaps no other.
            unsafe { $function(p, program.len(), j, job.len(), number, s, said.len(), c, cells.len(), from, o, out.len()) }
        }
    };
}

lengths!(list_lengths, raugvite_list_work, raugvite_list_answer);
lengths!(run_lengths, raugvite_run_work, raugvite_run_answer);
entry!(list, raugvite_list, 5);
entry!(list_print, raugvite_list_print, 6, page);
entry!(list_print_sampled, raugvite_list_print_sampled, 6, page);
entry!(run, raugvite_run, 4);
text!(print_list, raugvite_print_list, 5);
text!(print_sampled, raugvite_print_sampled, 5);
text!(print_run, raugvite_print_run, 4);

/* The resolver for C: what `resolve` and `print` promise, with numbers and arrays alone.
 *
 * Each array is a pointer and a number of elements. No pointer may be null, also where its number is 0, no array may overlap another
 * that is written, and each must have its alignment: that is all a caller has to see to. Whatever the arrays hold, every function ends and touches
 * nothing outside them. A call takes up to 330 KB of stack. docs/STORAGE.md says how lines and values stand in `answer`; docs/CONTRACTS.md what
 * is proved.
 */
#ifndef RAUGVITE_H
#define RAUGVITE_H

#include <stddef.h>
#include <stdint.h>

#ifdef __cplusplus
extern "C" {
#endif

/* What `said` holds after a listing, beside the number that is returned. */
enum raugvite_listed {
  RAUGVITE_LETTER = 0,      /* of a refused text: 'p' the program, 'j' the job; else 0 */
  RAUGVITE_OFFSET = 1,      /* of a refused text: the offset; else 0 */
  RAUGVITE_CUT = 2,         /* 1 where the listing is cut, else 0 */
  RAUGVITE_LINES = 3,       /* the lines in `answer`; 0 of a refused text */
  RAUGVITE_TRANSITIONS = 4, /* the transitions; 0 of a refused text */
  RAUGVITE_BYTES = 5        /* after raugvite_list_print and raugvite_list_print_sampled: how many bytes of `out` are text */
};

/* The same after a run; the letter and the offset stand where a listing has them. */
enum raugvite_ran {
  RAUGVITE_STEPS = 2, /* the steps; 0 where there is no value */
  RAUGVITE_LENGTH = 3 /* the cells of the value, at least 1; 0 where there is none */
};

/* The same after the sample of a line: both 0 where there is no such line. */
enum raugvite_sampled {
  RAUGVITE_INPUTS = 0, /* the cells of the sample's inputs */
  RAUGVITE_OUTPUT = 1  /* the cells of its output, at least 1 */
};

/* The least lengths of `work`, `answer` and `sample`, in elements of 2 bytes. */
size_t raugvite_list_work(void);
size_t raugvite_list_answer(void);
size_t raugvite_run_work(void);
size_t raugvite_run_answer(void);
size_t raugvite_sample_cells(void);

/* The listing of a program and a job: returns 0 where it is whole or cut, 21 to 23 where it was stopped, 1 to 13 where a text is refused, 20
 * where `work` or `answer` is too short. `said` takes the five numbers above as far as it is long, and is zero behind them. After 0 and
 * 21 to 23 the lines stand in `answer`, zeros behind them; after 1 to 13 `answer` is as it was. `work` is zero after each number but 20,
 * which touches nothing: neither `work` nor `answer` nor `said`. */
size_t raugvite_list(const uint8_t *program, size_t program_length, const uint8_t *job, size_t job_length, uint16_t *work, size_t work_length,
                     uint16_t *answer, size_t answer_length, size_t *said, size_t said_length);

/* raugvite_list, and in `out` the printed text of what it leaves, from its first byte on, as many bytes as there is room for, zeros behind
 * them; how many they are is the sixth number of `said`. Where `out` is full the rest is printed by raugvite_print_list from there on. The
 * texts are read once. After 20 `out` has the text of that refusal, and `said` is as it was. */
size_t raugvite_list_print(const uint8_t *program, size_t program_length, const uint8_t *job, size_t job_length, uint16_t *work, size_t work_length,
                           uint16_t *answer, size_t answer_length, size_t *said, size_t said_length, uint8_t *out, size_t out_length);

/* The sample of a line: one known input that lies in it, with its output. `answer` is what a listing left, `line` the line's number, from 1 on. Returns
 * 0, and `said` takes the two numbers above as far as it is long, zeros behind them. The cells of the inputs stand in `sample`, behind them those of
 * the output, then zeros. There is no variable in them: for each that the line has left there is an atom of its own, a symbol whose number is 1,024 + k,
 * k from 0 by first standing; its name is Q and the number that comes as k-th of those, from 1 up, that make no symbol of program or job. Where
 * the listing has no line of this number both numbers are 0, which no line's are, and `sample` is as it was. Returns 20 where `sample` is too short,
 * and touches nothing: neither `sample` nor `said`. */
size_t raugvite_sample(const uint16_t *answer, size_t answer_length, size_t line, uint16_t *sample, size_t sample_length, size_t *said,
                       size_t said_length);

/* As raugvite_list_print, with the sample of each line under it, as `(in D ..) (out D)`; the rest is printed by raugvite_print_sampled. */
size_t raugvite_list_print_sampled(const uint8_t *program, size_t program_length, const uint8_t *job, size_t job_length, uint16_t *work,
                                   size_t work_length, uint16_t *answer, size_t answer_length, size_t *said, size_t said_length, uint8_t *out,
                                   size_t out_length);

/* As raugvite_list, for a run of the program on the job's inputs: returns 0 for a value and where there is none within the job's steps, which has
 * length 0; 21 over 4,096 nodes; 1 to 13 and 20 as above. `said` takes letter, offset, steps and length. After a value its cells stand in
 * `answer`, zeros behind them; after 21 and where there is none `answer` is zero. */
size_t raugvite_run(const uint8_t *program, size_t program_length, const uint8_t *job, size_t job_length, uint16_t *work, size_t work_length,
                    uint16_t *answer, size_t answer_length, size_t *said, size_t said_length);

/* The printed text of an answer from the byte `from` on, as many bytes as `out` has room for, zeros behind them: returns how many they are.
 * `cells` is the `answer` that the entry left, `number` what it returned and `said` what it wrote: five numbers of a listing, four of a run;
 * what is missing counts as 0, what stands behind them is not read. raugvite_print_sampled prints a listing with samples. */
size_t raugvite_print_list(const uint8_t *program, size_t program_length, const uint8_t *job, size_t job_length, size_t number, const size_t *said,
                           size_t said_length, const uint16_t *cells, size_t cells_length, size_t from, uint8_t *out, size_t out_length);
size_t raugvite_print_sampled(const uint8_t *program, size_t program_length, const uint8_t *job, size_t job_length, size_t number, const size_t *said,
                              size_t said_length, const uint16_t *cells, size_t cells_length, size_t from, uint8_t *out, size_t out_length);
size_t raugvite_print_run(const uint8_t *program, size_t program_length, const uint8_t *job, size_t job_length, size_t number, const size_t *said,
                          size_t said_length, const uint16_t *cells, size_t cells_length, size_t from, uint8_t *out, size_t out_length);

#ifdef __cplusplus
}
#endif

#endif

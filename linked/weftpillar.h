/* Weftpillar, the proved judge of radio slot plans, as a static library: `rt lib` in crates/weftpillar_c writes it.

   Every call is total: it reads and writes the buffers lent to it, keeps nothing from one call to the next, takes no
   memory of its own but the stack, and always answers. What each answers and leaves is defined for every input in
   crates/weftpillar/specs and proved of the code.

   ANSWERS. 0 done. 1 to 22 the number of the refusal, as in README.md: 20 to 22 and 1 to 9 speak of the plan file, 19 of
   a step's letter or line, 10 of a number in a run or a place, 11 to 17 of the step or the reckoning. 254 the shown run
   has no more steps. 255 a lent buffer has another length than the call asks for. The order of the tests is 255, then
   the plan file (20, 21, 22, then 1 to 9), then 19, then 10, then the others.
   A call that answers anything but 0 changes no byte of any buffer.

   BUFFERS. A buffer is a pointer, which is never NULL, and its length in bytes. `const` buffers may overlap each other; a
   buffer that a call may write overlaps no other buffer of the same call. All numbers in bytes are big-endian.

     plan     a plan file, whole: 21 + 2 * N bytes. Byte 5 of one that is taken is N, the number of nodes.
     verdict  51 bytes: outcome (1): 0 accepted, or 1 to 3 the first rule that fails; M (2); then for rules 1, 2 and 3
              the left side (8) and the right side (8). A rule holds where left is less than right.
     run      291 bytes: 32 places of 9: clock (1), slot (2), time since tick (4), mode (1): 0 waiting, 1 about to send,
              2 sending, message pending (1): 0 or 1; then the last message: 0 0 0 for none, or 1 and its slot (2).
              Places from N on are not tested, not read and not written. Bytes that spell no run get refusal 10.
     place    292 bytes: a run, then the mark (1): 0 before the pivot, 1 in it, 2 after it.
     step     5 bytes: letter `D` (delay), `T` (tick) or `S` (send), then the length of the delay or the node (4).

   USE. A place is where a shown run has come to; start with weftpillar_fresh_place and hand it back, call after call. Its
   first 291 bytes are the run there, so they can be lent to weftpillar_out_of_step or weftpillar_reckon. */
#ifndef WEFTPILLAR_H
#define WEFTPILLAR_H

#include <stddef.h>
#include <stdint.h>

#define WEFTPILLAR_DONE 0
#define WEFTPILLAR_FINISHED 254
#define WEFTPILLAR_ANOTHER_LENGTH 255

#define WEFTPILLAR_VERDICT_LENGTH 51
#define WEFTPILLAR_RUN_LENGTH 291
#define WEFTPILLAR_PLACE_LENGTH 292
#define WEFTPILLAR_STEP_LENGTH 5
#define WEFTPILLAR_APART_LENGTH 9
#define WEFTPILLAR_TICKS_LENGTH 4

#ifdef __cplusplus
extern "C" {
#endif

/* Judges a plan file: the verdict into `verdict`. */
uint8_t weftpillar_judge(const uint8_t *plan, size_t plan_length, uint8_t *verdict, size_t verdict_length);

/* A run at its beginning: all numbers 0, all waiting, nothing pending, none sent. All 32 places are written. */
uint8_t weftpillar_fresh(uint8_t *run, size_t run_length);

/* The place where a shown run begins: a fresh run, before the pivot. */
uint8_t weftpillar_fresh_place(uint8_t *place, size_t place_length);

/* One step, by its letter and number: the run is moved on in place. Refusals 19, 10, 11 to 16. */
uint8_t weftpillar_step(const uint8_t *plan, size_t plan_length, uint8_t *run, size_t run_length, uint8_t letter,
                        uint32_t number);

/* Many steps, 5 bytes each, one after the other, with the plan and the run tested once, before any step is looked at: 10
   is the call's answer, whatever the steps are. `answers` gets one byte a step:
   0, or the number of its refusal (19 for another letter); a refused step changes nothing and the next one is tried.
   255 unless steps_length is 5 * answers_length. */
uint8_t weftpillar_steps(const uint8_t *plan, size_t plan_length, uint8_t *run, size_t run_length, const uint8_t *steps,
                         size_t steps_length, uint8_t *answers, size_t answers_length);

/* Whether the run is out of step. `answer`, 9 bytes: nine zeros in step; or 1, the lowest sending node with a node
   elsewhere (4), the lowest such node (4). */
uint8_t weftpillar_out_of_step(const uint8_t *plan, size_t plan_length, const uint8_t *run, size_t run_length,
                               uint8_t *answer, size_t answer_length);

/* A node's reckoning of the ticks since the last message, 4 bytes. Refusals 10, 12, 17. */
uint8_t weftpillar_reckon(const uint8_t *plan, size_t plan_length, const uint8_t *run, size_t run_length, uint32_t node,
                          uint8_t *ticks, size_t ticks_length);

/* The next step of the run shown for a plan that fails a rule, and the place moved on by it; 254 where it is finished, at
   once for an accepted plan. */
uint8_t weftpillar_next(const uint8_t *plan, size_t plan_length, uint8_t *place, size_t place_length, uint8_t *step,
                        size_t step_length);

/* One step line, as the stepping program takes it, its newline included, to a step: decimal, no leading zeros, one
   space. Refusal 19. */
uint8_t weftpillar_line(const uint8_t *line, size_t line_length, uint8_t *step, size_t step_length);

#ifdef __cplusplus
}
#endif

#endif

/* ick, the proved INTERCAL-72 compiler and explorer, as four calls over memory.
 *
 *     cc program.c libick.a        bindings/build makes libick.a, and libick.so
 *
 * A call opens no file, and reads and writes no stream. It keeps nothing from one call to the next, so threads may
 * call at the same time. It takes memory by malloc, realloc and free, and gives all of it back. No call may be made
 * from a signal handler, or from the forked child of a process with threads.
 *
 * A call ends by itself: --limit bounds the steps of each run, --count the runs of a listing, and --most the states of
 * ick-outcomes. To end a call at any time, make it in a process of its own and kill that process, as ick.py does. */
#ifndef ICK_H
#define ICK_H

#include <stddef.h>
#include <stdint.h>

#ifdef __cplusplus
extern "C" {
#endif

/* The version of this header, and the same as a number: 1,000,000 times the first number, 1,000 times the second number,
 * and the third number. */
#define ICK_VERSION "0.1.0"
#define ICK_VERSION_NUMBER 1000

/* Returns the library's version as a number. Compare it with ICK_VERSION_NUMBER if the library is loaded at run time. */
uint32_t ick_version(void);

/* The lengths of the two texts that a call wrote, in bytes. */
struct ick_lengths {
    size_t output;
    size_t errors;
};

/* Does what the program ick does with these arguments, and returns the exit status: 0 to 4, or 64.
 *
 * arguments   The arguments as docs/MANUAL.md has them, without the program's own name. A byte 0 follows each of them.
 *             If the last byte isn't 0, or an argument is no text in UTF-8, the answer is WORDS NOT READ and 64.
 * file        The bytes of every file: an argument FILE opens it, whatever its name.
 * input       The bytes of standard input.
 * output      Gets the front of what ick writes on standard output, up to output_room bytes.
 * errors      Gets the front of what ick writes on standard error, up to errors_room bytes.
 * lengths     Gets the whole lengths of both texts, which may be greater than the rooms. The same call with more room
 *             gives the same texts. An error text can be as long as the source, since a fault can quote a statement.
 *             A caller who reserves addresses for any text, as example.c does by mmap, makes each call once.
 *
 * What is behind a text in its room stays as it was. If memory runs out, the status is 4 and the output is the front of
 * the whole output. The error text is OUT OF MEMORY, or WRITE FAILED if the output could not grow. It may be missing,
 * since it takes memory too.
 *
 * No pointer may be null, not even with a length of 0, and no length may be above PTRDIFF_MAX. output, errors and
 * lengths must not overlap each other or anything else. */
uint8_t ick_serve(const uint8_t *arguments, size_t arguments_length, const uint8_t *file, size_t file_length,
                  const uint8_t *input, size_t input_length, uint8_t *output, size_t output_room, uint8_t *errors,
                  size_t errors_room, struct ick_lengths *lengths);

/* Does what the program ick-outcomes does with these arguments, and returns the exit status: 0, 2, 4 or 64.
 *
 * listing     The bytes of every listing: an argument --asked LISTING opens it, whatever its name.
 *
 * All else is as for ick_serve. If memory runs out, or too many states would be kept, there is no output. */
uint8_t ick_outcomes_serve(const uint8_t *arguments, size_t arguments_length, const uint8_t *file, size_t file_length,
                           const uint8_t *listing, size_t listing_length, const uint8_t *input, size_t input_length,
                           uint8_t *output, size_t output_room, uint8_t *errors, size_t errors_room,
                           struct ick_lengths *lengths);

/* Does what the program ick-step does with these arguments, and returns the exit status: 0 to 4, or 64.
 *
 * input       The bytes of the file that --input opens, whatever its name.
 * commands    The bytes of standard input: the commands of the session, one a line.
 *
 * All else is as for ick_serve. To go on with a session, a call gives all its commands again and those that follow: the
 * output begins with the output before. Each call makes the steps of all its commands anew. The program ick-step keeps
 * its state: start it with a pipe for its commands and one for its answers, as ick.Session does in ick.py. */
uint8_t ick_step_serve(const uint8_t *arguments, size_t arguments_length, const uint8_t *file, size_t file_length,
                       const uint8_t *input, size_t input_length, const uint8_t *commands, size_t commands_length,
                       uint8_t *output, size_t output_room, uint8_t *errors, size_t errors_room,
                       struct ick_lengths *lengths);

/* Does what the program ick-stages does with these arguments, and returns the exit status: 0, 2, 4 or 64. All else is as
 * for ick_serve. */
uint8_t ick_stages_serve(const uint8_t *arguments, size_t arguments_length, const uint8_t *file, size_t file_length,
                         const uint8_t *input, size_t input_length, uint8_t *output, size_t output_room,
                         uint8_t *errors, size_t errors_room, struct ick_lengths *lengths);

#ifdef __cplusplus
}
#endif

#endif

/* aig: a verified AIGER toolkit, from C and C++.
 *
 * Each call takes bytes and returns bytes. An input is a pointer and a length: the bytes of a circuit, certificate,
 * witness, stimulus, script, model or proof, as docs/FORMATS.md and docs/BEHAVIOUR.md of the toolkit describe them. The
 * call writes what the command of its name prints to the front of `room`, which has `room_length` bytes, and sets
 * `*length` to the number of bytes that it wrote. It adds no zero byte. A pointer may not be NULL, even if its length
 * is 0. Inputs are not changed, and may overlap each other.
 *
 * `frames` counts frames from 1, and `property` is the position of a bad state property, counted from 0.
 *
 * Each call returns a status:
 *   AIG_DONE       the command went well, and the room begins with what it prints
 *   AIG_REFUSED    an input is rejected, and the room begins with the reason, as `circuit: cycle 2`. If the reason is
 *                  longer than the room, or there is no memory for it, *length is 0
 *   AIG_NO_ROOM    the result is longer than the room: pass a larger one
 *   AIG_NO_MEMORY  memory ran out
 * After the first two *length is at most room_length. After the last two the room and *length are as they were.
 * *confirmed changes only with AIG_DONE. A call allocates as many bytes as the room has, besides what the command
 * needs, and frees all of them before it returns.
 *
 * The library opens no file and starts no thread. It keeps no state but the benches that your program opens
 * (`aig_live_open`, below). Any number of threads may call it at once, with rooms and benches of their own.
 *
 * It is proved what each call does with the bytes, for all inputs (docs/PROVED.md); the reason that it writes after
 * AIG_REFUSED is only tested. Nothing proves this header, or that your program keeps to it: pointers and lengths are
 * right; a bool is 0 or 1; the room, *length and *confirmed overlap nothing else; `malloc`, `realloc` and `free` belong
 * to one allocator, and align to 16 bytes. Do not call from a signal handler, or after a fork in the child of a process
 * with threads.
 */
#ifndef AIG_H
#define AIG_H

#include <stdbool.h>
#include <stddef.h>
#include <stdint.h>

#ifdef __cplusplus
extern "C" {
#endif

enum aig_status { AIG_DONE = 0, AIG_REFUSED = 1, AIG_NO_ROOM = 2, AIG_NO_MEMORY = 3 };

/* Of aig_live_open alone: the struct has a bench already. */
enum { AIG_HELD = 4 };

/* The version of this header. */
#define AIG_VERSION "0.4.0"

/* The version of the library. It is AIG_VERSION if this header belongs to the library that runs. */
uint8_t aig_version(uint8_t *room, size_t room_length, size_t *length);

/* ---- circuits */

/* `aig toaig`: the circuit as text (`aag`), or in the binary format (`aig`). */
uint8_t aig_toaig(const uint8_t *circuit, size_t circuit_length, bool binary, uint8_t *room, size_t room_length,
                  size_t *length);

/* `aig info`: what the file is, one line per fact: a name and a value. */
uint8_t aig_info(const uint8_t *circuit, size_t circuit_length, uint8_t *room, size_t room_length, size_t *length);

/* `aig info --names`: one line per input, latch, output and property: letter, position, literal and name. */
uint8_t aig_names(const uint8_t *circuit, size_t circuit_length, uint8_t *room, size_t room_length, size_t *length);

/* `aig unroll`: the circuit for 1 to 65,536 frames as one circuit without latches, as text or in the binary format. */
uint8_t aig_unroll(const uint8_t *circuit, size_t circuit_length, uint32_t frames, bool binary, uint8_t *room,
                   size_t room_length, size_t *length);

/* `aig cut`: the circuit in which the parts that a text names may be anything, as text or in the binary format. */
uint8_t aig_cut(const uint8_t *circuit, size_t circuit_length, const uint8_t *cuts, size_t cuts_length, bool binary,
                uint8_t *room, size_t room_length, size_t *length);

/* `aig strengthen`: the circuit, strengthened by a certificate for the property, as text or in the binary format. */
uint8_t aig_strengthen(const uint8_t *circuit, size_t circuit_length, const uint8_t *certificate,
                       size_t certificate_length, uint32_t property, bool binary, uint8_t *room, size_t room_length,
                       size_t *length);

/* ---- runs */

/* `aig check`: the line of the verdict on a witness. `*confirmed` says whether it is `confirmed`: then the run of the
 * witness reaches the bad state, whatever its unknown values are. */
uint8_t aig_check(const uint8_t *circuit, size_t circuit_length, const uint8_t *witness, size_t witness_length,
                  uint8_t *room, size_t room_length, size_t *length, bool *confirmed);

/* `aig witness`: the witness of the first frame at which the run over the rows of a stimulus reaches the property. If
 * no frame does, the status is AIG_REFUSED. */
uint8_t aig_witness(const uint8_t *circuit, size_t circuit_length, const uint8_t *rows, size_t rows_length,
                    uint32_t property, uint8_t *room, size_t room_length, size_t *length);

/* `aig reduce`: a confirmed witness, with x in place of each value that its failure does not need. If the witness is
 * not confirmed, the result is the line of its verdict. `*confirmed` says which of the two it is. */
uint8_t aig_reduce(const uint8_t *circuit, size_t circuit_length, const uint8_t *witness, size_t witness_length,
                   uint8_t *room, size_t room_length, size_t *length, bool *confirmed);

/* `aig wave --witness`: the run of a witness as a value change dump (VCD), whatever its verdict. */
uint8_t aig_wave_witness(const uint8_t *circuit, size_t circuit_length, const uint8_t *witness, size_t witness_length,
                         uint8_t *room, size_t room_length, size_t *length);

/* `aig bench`: the replies to all lines of a script on a bench of the circuit and the rows of a stimulus. */
uint8_t aig_bench(const uint8_t *circuit, size_t circuit_length, const uint8_t *rows, size_t rows_length,
                  const uint8_t *script, size_t script_length, uint8_t *room, size_t room_length, size_t *length);

/* ---- with a SAT solver */

/* `aig cnf`: the formula, in DIMACS, that a run reaches the property within 1 to 65,536 frames. With `step` it is the
 * formula of the step of an induction over 1 to 65,535 frames. */
uint8_t aig_cnf(const uint8_t *circuit, size_t circuit_length, uint32_t frames, uint32_t property, bool step,
                uint8_t *room, size_t room_length, size_t *length);

/* `aig cnf --alive`: the formula that a run keeps all constraints for this many frames. */
uint8_t aig_cnf_alive(const uint8_t *circuit, size_t circuit_length, uint32_t frames, uint8_t *room, size_t room_length,
                      size_t *length);

/* `aig cnf --certificate`: the formula of the induction over one frame for the strengthened circuit. */
uint8_t aig_cnf_certified(const uint8_t *circuit, size_t circuit_length, const uint8_t *certificate,
                          size_t certificate_length, uint32_t property, uint8_t *room, size_t room_length,
                          size_t *length);

/* `aig witness --model`: the witness of the run that a solver's model of the formula of aig_cnf names. With `step` it
 * is the run by which the step fails. */
uint8_t aig_model_witness(const uint8_t *circuit, size_t circuit_length, const uint8_t *model, size_t model_length,
                          uint32_t frames, uint32_t property, bool step, uint8_t *room, size_t room_length,
                          size_t *length);

/* `aig witness --certificate --model`: the witness of the run by which a certificate fails. The model is one of the
 * formula of aig_cnf_certified. */
uint8_t aig_model_witness_certified(const uint8_t *circuit, size_t circuit_length, const uint8_t *certificate,
                                    size_t certificate_length, const uint8_t *model, size_t model_length,
                                    uint32_t property, uint8_t *room, size_t room_length, size_t *length);

/* `aig refute`: the line `unreachable within K`, if a solver's proof refutes the formula of aig_cnf: then no run
 * reaches the property within K frames. */
uint8_t aig_refute(const uint8_t *circuit, size_t circuit_length, const uint8_t *proof, size_t proof_length,
                   uint32_t frames, uint32_t property, uint8_t *room, size_t room_length, size_t *length);

/* `aig refute --alive`: the line `no run of K frames`, if a proof refutes the formula of aig_cnf_alive: then no run
 * keeps all constraints for K frames. */
uint8_t aig_refute_alive(const uint8_t *circuit, size_t circuit_length, const uint8_t *proof, size_t proof_length,
                         uint32_t frames, uint8_t *room, size_t room_length, size_t *length);

/* `aig refute --step`: the line `unreachable`, if `proof` refutes the formula of aig_cnf, and `step` the formula of the
 * induction step: then no run of any length reaches the property. */
uint8_t aig_refute_step(const uint8_t *circuit, size_t circuit_length, const uint8_t *proof, size_t proof_length,
                        const uint8_t *step, size_t step_length, uint32_t frames, uint32_t property, uint8_t *room,
                        size_t room_length, size_t *length);

/* `aig refute --certificate`: the line `unreachable`, if a proof refutes the formula of aig_cnf_certified: then no run
 * of any length reaches the property. */
uint8_t aig_refute_certified(const uint8_t *circuit, size_t circuit_length, const uint8_t *certificate,
                             size_t certificate_length, const uint8_t *proof, size_t proof_length, uint32_t property,
                             uint8_t *room, size_t room_length, size_t *length);

/* ---- a bench that stays open
 *
 * A bench is a circuit and its rows: the values of the inputs at each frame. An edit changes one of them, and all
 * values stay current; a question asks for values. These calls keep a bench open in between:
 *
 *     struct aig_live bench = AIG_LIVE_NONE;
 *     struct aig_report report;
 *     uint8_t value;
 *     if (aig_live_open(circuit, circuit_length, rows, rows_length, &bench, room, sizeof room, &length) == AIG_DONE) {
 *         aig_live_set(&bench, 3, 0, 1, &report);
 *         aig_live_value(&bench, 3, 8, &value);
 *         aig_live_close(&bench);
 *     }
 *
 * examples/live.c is a whole program. What your program has to uphold:
 *   1. The struct begins as AIG_LIVE_NONE. After that only the library writes it.
 *   2. No second copy is used. The struct may be moved, as nothing points to it, if the old place is forgotten.
 *   3. One call at a time for one bench. Several threads may use different benches at once.
 *   4. A bench stays on the thread that opened it.
 *   5. What the calls above ask for. The structs, arrays and rooms of one call do not overlap.
 * A bench that is never closed keeps its memory. Any call without a bench, before aig_live_open or after
 * aig_live_close, returns AIG_NOT_OPEN and changes nothing.
 *
 * Values are 0, 1, and 2 for x. Literals are those of AIGER. Frames and positions count from 0. An edit that is refused
 * leaves the bench, and what it would have written, as they were. It is refused for the first reason of the enum that
 * applies; a kind or a value that there is not comes before all others.
 */
struct aig_live { void *inside; bool present; }; /* both are the library's */
#define AIG_LIVE_NONE { NULL, false }

/* What edits and questions return: 0 to 13 are the numbers that `aig bench` prints after `no`. */
enum aig_live_status {
    AIG_LIVE_OK = 0,
    AIG_NOT_A_GATE = 1,      /* the literal is not the even literal of a gate */
    AIG_NOT_A_LATCH = 2,     /* the literal is not the even literal of a latch */
    AIG_RANGE = 3,           /* a literal over 2 * max_var + 1 */
    AIG_UNDEFINED = 4,       /* a variable that is neither 0 nor defined */
    AIG_CYCLE = 5,           /* the gates would close a cycle */
    AIG_NO_FRAME = 6,        /* a frame that is not there */
    AIG_NO_INPUT = 7,        /* an input that is not there */
    AIG_LENGTH = 8,          /* not as many values as there are inputs, or inputs times frames */
    AIG_EMPTY = 9,           /* there is no frame to take off */
    AIG_LIMIT = 10,          /* more variables, frames or cells than a bench may have */
    AIG_OUT_OF_MEMORY = 11,
    AIG_NO_OUTPUT = 13,      /* an output that is not there */
    AIG_NO_KIND = 252,       /* there is no such kind of edit */
    AIG_NO_VALUE = 253,      /* a value over 2 */
    AIG_SHORT = 254,         /* fewer places for values than cells or literals */
    AIG_NOT_OPEN = 255       /* there is no bench */
};

/* How many cells of gates an edit evaluated, and how many of them changed. */
struct aig_report { uint64_t evaluated, changed; };

/* Opens a bench of a circuit and the rows of a stimulus: AIG_DONE; AIG_REFUSED with the reason in the room;
 * AIG_NO_MEMORY; or AIG_HELD, and the bench that is open stays. The room and *length change with AIG_REFUSED alone;
 * *length is 0 if the reason is longer than the room, or there is no memory for it. */
uint8_t aig_live_open(const uint8_t *circuit, size_t circuit_length, const uint8_t *rows, size_t rows_length,
                      struct aig_live *bench, uint8_t *room, size_t room_length, size_t *length);

/* Closes a bench and frees its memory: 0, or AIG_NOT_OPEN. */
uint8_t aig_live_close(struct aig_live *bench);

/* Edits. *report is written with AIG_LIVE_OK alone. */

/* Replaces an input's value at a frame. It takes no memory. */
uint8_t aig_live_set(struct aig_live *bench, uint32_t frame, uint32_t input, uint8_t value, struct aig_report *report);

/* Gives a gate, named by its even literal, two other right sides. */
uint8_t aig_live_rewire(struct aig_live *bench, uint32_t gate, uint32_t right0, uint32_t right1,
                        struct aig_report *report);

/* Lets a latch, named by its even literal, start at another value: 2 is uninitialised. It takes no memory. */
uint8_t aig_live_reset(struct aig_live *bench, uint32_t latch, uint8_t value, struct aig_report *report);

/* Replaces the output at a position. It takes no memory. */
uint8_t aig_live_output(struct aig_live *bench, uint32_t position, uint32_t literal, struct aig_report *report);

/* Appends a gate with these right sides. With AIG_LIVE_OK *literal is the new gate's. */
uint8_t aig_live_append_gate(struct aig_live *bench, uint32_t right0, uint32_t right1, uint32_t *literal,
                             struct aig_report *report);

/* Appends a frame with a value for each input. If there is no memory for the row, AIG_OUT_OF_MEMORY comes before
 * AIG_LENGTH and AIG_LIMIT. */
uint8_t aig_live_add_frame(struct aig_live *bench, const uint8_t *row, size_t row_length, struct aig_report *report);

/* Takes the last frame off. It takes no memory. */
uint8_t aig_live_drop_frame(struct aig_live *bench, struct aig_report *report);

/* An edit of an array: the arguments of the call of its name, in their order. */
enum aig_edit_kind {
    AIG_EDIT_SET = 0,        /* a: frame, b: input, c: value */
    AIG_EDIT_REWIRE = 1,     /* a: gate, b: right0, c: right1 */
    AIG_EDIT_RESET = 2,      /* a: latch, b: value */
    AIG_EDIT_APPEND = 3,     /* a: right0, b: right1 */
    AIG_EDIT_OUTPUT = 4,     /* a: position, b: literal */
    AIG_EDIT_DROP = 5        /* drop_frame */
};
struct aig_edit { uint32_t kind, a, b, c; };

/* Does edits one after the other, up to the first that is refused. *done is the number of those that were done, so with
 * another status than AIG_LIVE_OK edit *done is the one that is refused. *sum is the sum of the reports of those that
 * were done; a sum over 2^64 - 1 is written as 2^64 - 1. Without a bench *done and *sum stay. */
uint8_t aig_live_edits(struct aig_live *bench, const struct aig_edit *edits, size_t edits_length, size_t *done,
                       struct aig_report *sum);

/* Replaces all rows by as many others: inputs times frames values, frame by frame. */
uint8_t aig_live_replace_rows(struct aig_live *bench, const uint8_t *values, size_t values_length);

/* Questions. What they would have written stays if the status is not AIG_LIVE_OK. They take no memory. */

/* The value of a literal at a frame: the status is AIG_LIVE_OK, AIG_RANGE, AIG_UNDEFINED or AIG_NO_FRAME. */
uint8_t aig_live_value(struct aig_live *bench, uint32_t frame, uint32_t literal, uint8_t *value);

/* A cell: a literal at a frame. */
struct aig_cell { uint32_t frame, literal; };

/* The values of cells, each in the place of its cell: 0, 1, 2, or 16 and the number of the fault. Places after the last
 * one stay as they are. */
uint8_t aig_live_values(struct aig_live *bench, const struct aig_cell *cells, size_t cells_length, uint8_t *values,
                        size_t values_length);

/* The values of literals at one frame, as aig_live_values gives them. */
uint8_t aig_live_row(struct aig_live *bench, uint32_t frame, const uint32_t *literals, size_t literals_length,
                     uint8_t *values, size_t values_length);

/* The sizes of a bench. Opening it, and replacing its rows, evaluates gates times frames cells. */
struct aig_sizes { uint32_t frames, inputs, latches, outputs, gates, max_var; };
uint8_t aig_live_sizes(struct aig_live *bench, struct aig_sizes *sizes);

/* Texts, in a room as the calls above write them: AIG_DONE, AIG_REFUSED, AIG_NO_ROOM, AIG_NO_MEMORY, or AIG_NOT_OPEN.
 * The bench stays as it is. */

/* The trace: a line a frame, as `aig bench` prints it for `t`, without its last line. */
uint8_t aig_live_trace(struct aig_live *bench, uint8_t *room, size_t room_length, size_t *length);

/* The circuit unrolled for as many frames as there are, as text or in the binary format. It is refused without frames,
 * with liveness properties, or if it is too large. */
uint8_t aig_live_unrolled(struct aig_live *bench, bool binary, uint8_t *room, size_t room_length, size_t *length);

/* The circuit as text, with all edits that were done. It is never refused. */
uint8_t aig_live_circuit(struct aig_live *bench, uint8_t *room, size_t room_length, size_t *length);

/* The rows as a stimulus. It is never refused. */
uint8_t aig_live_stimulus(struct aig_live *bench, uint8_t *room, size_t room_length, size_t *length);

#ifdef __cplusplus
}
#endif
#endif

/*
 * Barrizuppa: an assembler for WebAssembly. A record stream (docs/STREAM.md)
 * goes in, a binary module or a refusal comes out.
 *
 * Link with target/staticlib/libassembler.a, which `tools/staticlib assembler`
 * proves and writes, for x86-64 Linux; installed by bindings/c/install.sh it is
 * `pkg-config --cflags --libs barrizuppa`. It needs memcpy and memset and nothing
 * else, allocates nothing, keeps nothing between calls, and may be called from
 * several threads at a time, each with buffers of its own. A call takes less
 * than 96 KB of stack.
 *
 * What is promised here are the proved contracts of the four calls in
 * crates/assembler/src/export.rt, in words. That these declarations have the
 * shape of those functions is not proved.
 */
#ifndef BARRIZUPPA_H
#define BARRIZUPPA_H

#include <stddef.h>
#include <stdint.h>

#ifdef __cplusplus
extern "C" {
#endif

/* The release that this header and the library belong to. */
#define BARRIZUPPA_VERSION_MAJOR 0
#define BARRIZUPPA_VERSION_MINOR 2
#define BARRIZUPPA_VERSION_PATCH 0
#define BARRIZUPPA_VERSION "0.2.0"

/* The least work area, in words. */
#define BARRIZUPPA_WORK_WORDS 16384

/* The longest stream, in bytes. */
#define BARRIZUPPA_STREAM_BYTES 65536

/* The answer's words. */
#define BARRIZUPPA_NUMBER 0
#define BARRIZUPPA_RECORD 1
#define BARRIZUPPA_LENGTH 2
#define BARRIZUPPA_FIRST 3

/* What a call's number may be. A later release may have more. */
enum barrizuppa_number {
    BARRIZUPPA_ASSEMBLED = 0,
    BARRIZUPPA_REFUSED_STREAM = 1,        /* the stream is too long */
    BARRIZUPPA_REFUSED_END = 2,           /* it ends inside a record or a body */
    BARRIZUPPA_REFUSED_NUMBER = 3,        /* a number does not fit its width */
    BARRIZUPPA_REFUSED_BYTE = 4,          /* a byte stands where no form allows it */
    BARRIZUPPA_REFUSED_IDENTIFIER = 5,    /* too long, a wrong byte, or empty in an index */
    BARRIZUPPA_REFUSED_STRING = 6,        /* too long, or a wrong byte */
    BARRIZUPPA_REFUSED_COUNT = 7,         /* another count passes its ceiling */
    BARRIZUPPA_REFUSED_BLOCK = 8,         /* else, end or the body's end, and the blocks */
    BARRIZUPPA_REFUSED_START = 9,         /* a second start */
    BARRIZUPPA_REFUSED_WORK = 10,         /* the work area is too short */
    BARRIZUPPA_REFUSED_IMPORT = 11,       /* an import after an own item */
    BARRIZUPPA_REFUSED_TYPES = 12,        /* a use would add a 257th type */
    BARRIZUPPA_REFUSED_TAKEN = 13,        /* an identifier is taken */
    BARRIZUPPA_REFUSED_UNKNOWN = 14,      /* no such identifier */
    BARRIZUPPA_REFUSED_TYPE_NUMBER = 15,  /* an inline type use has a number that no type has */
    BARRIZUPPA_REFUSED_TYPE = 16,         /* an inline type differs from the type it names */
    BARRIZUPPA_REFUSED_LABEL = 17,        /* the label on else or end is not its block's */
    BARRIZUPPA_REFUSED_ROOM = 18,         /* the output is too short */
    BARRIZUPPA_REFUSED_PADDING = 19,      /* a number is longer than needed */
    BARRIZUPPA_REFUSED_NOWHERE = 20       /* in a strict call: a number points to nothing */
};

/*
 * Assembles the stream.
 *
 *   stream, stream_len   the record stream. Any bytes: nothing has to be
 *                        checked first. It is only read.
 *   work, work_len       words for the call's own use, whatever they hold.
 *   out, out_len         where the module goes.
 *   answer               four words, which are all written.
 *
 * Returns the number, the same as the answer's first word.
 *
 * Number: 0 where the stream is assembled, else the refusal's number, 1 to 19,
 * and in a strict call 20 (enum barrizuppa_number). docs/REFUSALS.md says when each
 * is given, and what to do.
 *
 * Record: the count of records where the stream is assembled. On a refusal the
 * record, counted from 0, that holds the fault; 0 with 1 and 10; the count of
 * records with 18.
 *
 * Length: how many bytes of the output were written; 0 on a refusal.
 *
 * First: with 13 the record of the item that had the identifier first; where two
 * parameters or locals of one function have it, that function's record. In every
 * other answer the same as the record.
 *
 * Output: its first `length` bytes are the module. Every other byte is as it
 * was, so on a refusal the output is untouched. A module that does not fit
 * is refused 18 and not cut. A length is told in 32 bits: of an output beyond
 * 4,294,967,295 bytes only so many are used.
 *
 * Work area: after every call all its work_len words are 0, whatever they held
 * before. With fewer than BARRIZUPPA_WORK_WORDS the answer is 10 (or 1, for a
 * stream that is too long).
 *
 * What the caller owes, and nothing beyond it: each pointer is valid for its
 * length and aligned for its type, `answer` for four words, and no two of the
 * four overlap. A pointer that comes with the length 0 is not followed and may
 * be null.
 */
uint32_t barrizuppa_assemble(const uint8_t *stream, size_t stream_len,
                             uint32_t *work, size_t work_len,
                             uint8_t *out, size_t out_len,
                             uint32_t answer[4]);

/*
 * The same, and after the module's other sections it writes the standard's
 * name section, for a debugger: the stream's identifiers of functions,
 * parameters and locals. A stream without any has no name section. Room and
 * length are of both: a stream may be refused 18 here that the other call
 * assembles. Everything else is as above.
 */
uint32_t barrizuppa_assemble_names(const uint8_t *stream, size_t stream_len,
                                   uint32_t *work, size_t work_len,
                                   uint8_t *out, size_t out_len,
                                   uint32_t answer[4]);

/*
 * The strict calls: the same two, and every number in an index must point to
 * something that is there. It must lie below the count of its index space, added
 * types included; a local below the parameters and locals of its function; a label
 * may at most equal the number of open blocks. An absent index that means 0 is
 * checked as 0. A number that does not is refused 20, where an identifier that
 * nothing has is refused 14, so in an inline type use 15 is never given. In every
 * other answer, a module or another refusal, a strict call and its plain one are
 * the same.
 */
uint32_t barrizuppa_assemble_strict(const uint8_t *stream, size_t stream_len,
                                    uint32_t *work, size_t work_len,
                                    uint8_t *out, size_t out_len,
                                    uint32_t answer[4]);

uint32_t barrizuppa_assemble_strict_names(const uint8_t *stream, size_t stream_len,
                                          uint32_t *work, size_t work_len,
                                          uint8_t *out, size_t out_len,
                                          uint32_t answer[4]);

#ifdef __cplusplus
}
#endif

#endif

/* Fenuschia for a host in C: the table file, the sizing of a port's buffers, and a batch of reports to a port.
   Link target/staticlib/libfenuschia_c.a, which examples/run makes.

   Numbers
   -------
   In every buffer numbers are little-endian. A tick is one byte time (80 ns at 100 Mbit/s). Lengths of frames are in wire bytes;
   buffer sizes and bounds are in bytes kept, where a frame takes its length less 20. Each function answers 0, or the number of a
   refusal; it then has written nothing.

   Buffers
   -------
   A buffer is a pointer and a length in bytes. The functions read `const` buffers and write only to the others; they keep no pointer,
   allocate nothing, and have no state of their own, so calls on different buffers may run at once. For the time of a call:
   - no buffer that is written overlaps another buffer; buffers that are only read may;
   - nobody else writes to any of them, nor reads those that are written;
   - a pointer is not null and its buffer is wholly there, up to a length of PTRDIFF_MAX. Any address is aligned well enough.
   Of an empty buffer, length 0, nothing is read or written; its pointer is not null either, and may be any valid address.
   A call needs less than 512 KB of stack.

   The table file
   --------------
   A run of records, each a 2-byte length of what follows in it, a 2-byte kind, and its body; 44 + 18 n bytes in all:
   - once, length 6, kind 1: line count (2 bytes, 1 to 24), number n of virtual links (2, 1 to 256);
   - n times, length 16, kind 2: number (2), line (1, below the line count), priority (1, 0 to 7, 0 goes first), BAG code k (1, 0 to 7:
     12,500 x 2^k ticks), zero (1), least and greatest length (2 each, 84 to 1,538), jitter (4, 0 to 125,000 ticks);
     the numbers rise;
   - once, length 34, kind 3: eight buffer sizes (4 each, 0 to 16,384), priority 0 first.
   On each line the sum over its links of greatest length x 2^(7 - k) is at most 1,600,000, the bytes that a line carries in the
   longest BAG.

   Refusals
   --------
   of a file       1   it ends too early
                   2   kind or length of a record is not the one due
                   3   line count or number of links out of range
                   4   a field of a link out of range, its zero byte not 0, or its least length above the greatest
                   5   a link's number not above the one before
                   6   a buffer size out of range
                   7   bytes behind the last record
                  23   a line oversold: that sum is above 1,600,000. After the last link's record, and before any fault of the
                       record of sizes or behind it
   of the sizing   8   no bounds: some priority has no hold up to 65,536 ticks
   of an output    9   too short
   of a report    10   the port record is not fit; never in these calls, which begin with a fresh port
                  11   tick above 2^48 - 1
                  12   tick below that of an accepted report before it
                  13   frame: line not below the line count
                  14   frame: length outside 84 to 1,538
                  15   frame: tick below that of the line's accepted frame before, or 0, plus its length
                  16   fewer numbers left in the departure list than three for each frame held before the report
   of a batch     19   the report list is no multiple of 40 bytes, or has an unknown form in it
                  20   the answer list has fewer whole numbers than three for each report
   17, 18, 21 and 22 belong to parts that have no function here. */

#ifndef FENUSCHIA_H
#define FENUSCHIA_H

#include <stddef.h>
#include <stdint.h>

#ifdef __cplusplus
extern "C" {
#endif

/* Reads a table file. Answers 0; or 1 to 7 or 23; writes nothing. */
uint32_t fenuschia_read(const uint8_t *file, size_t file_length);

/* Reads a table file and writes its table to out: 44 + 18 n bytes, as many as the file has, and equal to them; what is behind
   them stays. Answers 0; or 1 to 7 or 23; or 9, out has fewer bytes than that. */
uint32_t fenuschia_write(const uint8_t *file, size_t file_length, uint8_t *out, size_t out_length);

/* The sizing of the buffers of a table file. Writes 32 numbers of 8 bytes to out, 256 bytes; what is behind them stays. Priority 0 first
   in each: eight bounds, in bytes, which a buffer never holds more than; eight holds, the most ticks within which a stored frame has left;
   eight windows, how many ticks after a quiet moment the formulas first reach the bound; eight sizes, those of the table.
   Answers 0; or 1 to 7 or 23; or 8, the table has no bounds; or 9, out has fewer than 256 bytes. */
uint32_t fenuschia_sizing(const uint8_t *file, size_t file_length, uint8_t *out, size_t out_length);

/* A batch of reports to the fresh port of a table file: one after the other, as they stand.

   reports      40 bytes each, five numbers of 8 bytes: form (0 a wait, 1 a frame), tick, line, number, length. A frame has wholly
                arrived on its line at the tick; a wait says that time has gone on to the tick, and its last three numbers are not
                read. Nothing is cut: a number above 65,535 is one that no link has.
   answers      three numbers of 8 bytes for each report: 0 or its refusal, 10 to 16; verdict; frames freed. Verdicts: 0 stored, or a
                wait; 1 filtered: no link has the number, or it is on another line or has other lengths; 2 policed: sooner than
                BAG and jitter allow; 3 dropped: its buffer is full. With a refusal the last two are 0, the port is as before, and the
                batch goes on.
   departures   three numbers of 8 bytes for each frame that has left the port: number, length, tick at which its last byte left. Those
                of all reports follow one another; frames freed tells how many are a report's. A report is refused with 16
                unless all that the port holds would fit behind those written. Room for three numbers a report is always
                enough.

   In answers and departures only whole numbers count, and what is behind those written stays as it was.

   Answers 0; or 1 to 7 or 23 of the file; or 19; or 20; in that order, and all before the first report. A refused report is no
   refusal of the batch. No reports: 0, and nothing is written. */
uint32_t fenuschia_batch(const uint8_t *file, size_t file_length,
                         const uint8_t *reports, size_t reports_length,
                         uint8_t *answers, size_t answers_length,
                         uint8_t *departures, size_t departures_length);

#ifdef __cplusplus
}
#endif

#endif

/*
 * lomqashe.h - the row sheet of a Scream Tracker 3 tune
 *
 * Eleven functions over numbers and bytes, in the archive target/staticlib/liblomqashe.a that
 * `./prove staticlib lomqashe` writes. Each result, and every byte written, is proved equal to a
 * definition that the function's contract in crates/lomqashe_c/src/lib.rt names, for all inputs: no
 * length and no value is a mistake that a function doesn't answer. They keep nothing between calls,
 * allocate nothing, call nothing but memcpy, memmove and memset, and may be called from several
 * threads at once.
 *
 * The archive is for x86-64: ELF objects, the System V calling convention. It links into programs,
 * position independent ones too, and into shared objects.
 *
 * Stack: lomqashe_section() takes 22,344 bytes, lomqashe_open() and lomqashe_open_closed() 11,336,
 * the others below 600, arguments included. This was measured on a painted stack; nothing in the
 * archive calls itself. Where the dynamic linker looks memcpy up at the first call, that comes on
 * top. A test asks that no call takes more than 32 KiB.
 *
 * What C must see to: a pointer's length is that of memory which the caller owns; memory that a
 * call writes overlaps no other argument. A pointer may be NULL where its length is 0, as that of
 * an empty std::vector: nothing is read or written there.
 *
 * Numbers
 *
 * Every number in memory has its low byte first. A flag is written as 0 or 1 and read as not 0.
 * Spare bytes are written as 0 and not read.
 *
 * Results
 *
 * Each function returns 32 bits. Bits 24 to 31, LOMQASHE_REFUSAL(), say why it refused:
 *
 *     0        it did not
 *     1        the file is shorter than 96 bytes
 *     2        its bytes 44 to 47 are not SCRM
 *     3        it has 0 or over 255 orders, over 99 instruments or over 100 patterns
 *     4        a list behind its header runs past it
 *     5        its speed is 0, its tempo below 32 or its global volume above 64
 *     6        a lent table is not exactly as long as the counts need
 *     7        an instrument's 80 bytes run past the file
 *     8        a packed pattern runs past the file before its 64th row ends
 *     9        the tables are not 1 to 255 orders, 0 to 100 patterns and 0 to 99 samples
 *     10       opening speed, tempo or volume is as in 5, a pan is above 15, the rate is 0 or above
 *              100,000, or a transposition is below -24 or above 24
 *     11       the state has a row or loop start above 63, speed 0, tempo below 32, a start above
 *              2^62, a rate or transposition as in 10, a remainder of 2 * tempo or more, or a
 *              frequency or target that is not a number
 *     12       n is above 65,535, or the output shorter than 536 * n bytes
 *     13       the record is not 536 bytes, or the output has under 32 (strikes) or 64 (line)
 *     14       the tune is not closed, as lomqashe_is_closed() says it
 *     15       the registers are not 16 bytes, their byte 2 or 3 is not 0, or a bit of the status
 *              other than 0, 1 and 7 is set
 *     16       m is 0 or above 65,535, or the records or the columns are not m * 536 bytes
 *     17       a channel of the state has a volume above 63, or 64 where it is AdLib, or a pan above 15
 *     255      counts, opening or state is not LOMQASHE_COUNTS_SIZE, _OPENING_SIZE or _STATE_SIZE
 *              bytes long, or the command is above 255
 *
 * 255 is tried first, then the numbers that a function names, in the order in which it names them.
 * A call that refuses leaves all memory as it was. Bits 0 to 23, LOMQASHE_GIVEN(), are what a call
 * that did not refuse gives; they are 0 where it did.
 */
#ifndef LOMQASHE_H
#define LOMQASHE_H

#include <stddef.h>
#include <stdint.h>

#ifdef __cplusplus
extern "C" {
#endif

#define LOMQASHE_REFUSAL(result) ((uint32_t)(result) >> 24)
#define LOMQASHE_GIVEN(result) ((uint32_t)(result) & 0xffffff)

/* The refusal where a length is wrong, or a command no byte. */
#define LOMQASHE_WRONG_LENGTH 255

#define LOMQASHE_COUNTS_SIZE 12
#define LOMQASHE_OPENING_SIZE 176
#define LOMQASHE_STATE_SIZE 2624

/* The tables: an order is one byte; these are the bytes of a sample and of a pattern. */
#define LOMQASHE_SAMPLE_SIZE 20
#define LOMQASHE_PATTERN_SIZE 10240

/* A record, and the least output of lomqashe_strikes() and of lomqashe_line(). */
#define LOMQASHE_RECORD_SIZE 536
#define LOMQASHE_STRIKES_SIZE 32
#define LOMQASHE_LINE_SIZE 64

/* The punch head: its registers, its commands, and the bits of its status. */
#define LOMQASHE_REGISTERS_SIZE 16
#define LOMQASHE_HEAD_LOAD 1
#define LOMQASHE_HEAD_STRIKE 2
#define LOMQASHE_HEAD_CLEAR 3
#define LOMQASHE_HEAD_LOADED 0x01
#define LOMQASHE_HEAD_LATE 0x02
#define LOMQASHE_HEAD_INTERRUPT 0x80

/*
 * lomqashe_measure() counts what an S3M file holds.
 *
 * counts is 12 bytes: the numbers of orders, instruments and patterns, 32 bits each.
 *
 * Gives 0. Refuses with 255 and 1 to 5.
 */
uint32_t lomqashe_measure(const uint8_t *file, size_t file_size,
                          uint8_t *counts, size_t counts_size);

/*
 * lomqashe_read() reads an S3M file into three tables and its opening values.
 *
 * rate is how fast the card moves, in micrometres a second; it is handed on, and asked about by
 * lomqashe_open() and not here.
 * orders, samples and cells must have the bytes that the file's counts ask for: a byte an order,
 * LOMQASHE_SAMPLE_SIZE an instrument, LOMQASHE_PATTERN_SIZE a pattern. All of them are written.
 *
 *     sample   type, volume, loop flag, a spare byte; then 32-bit length, loop start, loop end,
 *              c5 speed
 *     pattern  64 rows of 32 cells: note, instrument, volume, command, info
 *
 * opening is 176 bytes:
 *
 *     0 speed, 1 tempo, 2 global volume, 3 Amiga limits (flag), 4 fast slides (flag), 5-7 spare,
 *     8-11 rate, 12-15 spare; then for each of 32 channels pan, muted (flag), right bank (flag),
 *     AdLib (flag); 144-175 each channel's transposition in semitones (a signed byte), which is
 *     written as 0
 *
 * Gives 0. Refuses with 255 (opening) and 1 to 8.
 */
uint32_t lomqashe_read(const uint8_t *file, size_t file_size, uint32_t rate,
                       uint8_t *orders, size_t orders_size,
                       uint8_t *samples, size_t samples_size,
                       uint8_t *cells, size_t cells_size,
                       uint8_t *opening, size_t opening_size);

/*
 * lomqashe_open() makes the state in which a tune starts.
 *
 * orders, cells, samples and opening are as lomqashe_read() writes them, or the caller's own.
 * state is 2,624 bytes, to be handed to lomqashe_section(). Every 2,624 bytes are some state, and
 * a caller may look into them and change them. The first 64 are
 *
 *     0 order, 1 row, 2 loop order present (flag), 3 loop order, 4 loop count present (flag),
 *     5 loop count, 6 loop start row, 7 hold left, 8 held (flag), 9 ended (flag), 10 speed,
 *     11 tempo, 12 global volume, 13 Amiga limits (flag), 14 fast slides (flag), 15 spare,
 *     16-19 rate, 20-21 remainder, 22-23 spare, 24-31 start on the card in micrometres,
 *     32-63 each channel's last S info that was not 0
 *
 * and then for each of 32 channels 80 bytes:
 *
 *     0-3 frequency, 4-7 target frequency (binary32), 8-15 sample position (binary64),
 *     16 instrument, 17 volume, 18 pan, 19 active (flag), 20 command, 21 info,
 *     22 vibrato position, 23 tremolo position, 24 last note, 25 delay present (flag),
 *     26 its tick, 27 note, 28 instrument, 29 volume, 30 glissando (flag),
 *     31 vibrato waveform, 32 tremolo waveform (0 sine, 1 ramp down, 2 square, 3 random; read by
 *     the low two bits), 33 retrig counter, 34 tremor on, 35 tremor off, 36 stored volume,
 *     37 vibrato goes on over a new note (flag), 38 tremolo likewise (flag), 39 muted (flag),
 *     40 frozen (flag), 41 right bank (flag), 42 AdLib (flag),
 *     43 AdLib voice (0 none, 1 keyed, 2 released), 44 voice global volume,
 *     45 transposition (a signed byte), 46-47 spare,
 *     48-79 effect memory: at 48 + k the last info that was not 0 of command k (A is 1), for D to
 *     R and W to Z. H's is U's too; that of S is in the head; A, B, C, T and V have none. The bytes
 *     that are no command's are kept as they are
 *
 * What is absent is written as 0. The bits of any NaN are read as one NaN, which is written as
 * 0x7fc00000 or 0x7ff8000000000000.
 *
 * A channel keeps its transposition, and every pitch follows it: that of a note struck, of a slide's
 * target, with a note and without, and of S2x. A note byte has its octave in the high four bits and
 * its semitone in the low four. octave * 12 + semitone + transposition, below 0 taken as 0 and above
 * 107 as 107, is the number of the note whose period counts. The last note stays the cell's byte.
 *
 * The remainder is how much further than the start the rows so far go, in units of 1/(2 * tempo)
 * micrometre; a tune starts with 0. lomqashe_section() says how it goes on.
 *
 * Gives 0. Refuses with 255 (opening, state), 9 and 10.
 */
uint32_t lomqashe_open(const uint8_t *orders, size_t orders_size,
                       const uint8_t *cells, size_t cells_size,
                       const uint8_t *samples, size_t samples_size,
                       const uint8_t *opening, size_t opening_size,
                       uint8_t *state, size_t state_size);

/*
 * lomqashe_is_closed() says whether a tune is closed, which makes it sure to end.
 *
 * A closed tune has
 *
 *     no cell with S and info 0;
 *     no cell with B whose info is i or less, where the order at place i, reached or not, names the
 *     cell's pattern (places are counted from 0);
 *     in each pattern at most one row that loops: of its cells with S and an info of 0xb0 to 0xbf,
 *     that of the highest channel has an info above 0xb0.
 *
 * Every pattern counts, whether an order names it or not; for B, one that no order names has no
 * place. From the state that lomqashe_open() or lomqashe_open_closed() makes, a closed tune ends
 * within 16,384 rows an order, held ones counted.
 *
 * Gives 1 where it is closed and 0 where it is not. Refuses with 9.
 */
uint32_t lomqashe_is_closed(const uint8_t *orders, size_t orders_size,
                            const uint8_t *cells, size_t cells_size,
                            const uint8_t *samples, size_t samples_size);

/*
 * lomqashe_open_closed() makes the state in which a closed tune starts, and opens no other. What it
 * takes and writes is as with lomqashe_open().
 *
 * Gives 0. Refuses with 255 (opening, state), 9, 10 and 14.
 */
uint32_t lomqashe_open_closed(const uint8_t *orders, size_t orders_size,
                              const uint8_t *cells, size_t cells_size,
                              const uint8_t *samples, size_t samples_size,
                              const uint8_t *opening, size_t opening_size,
                              uint8_t *state, size_t state_size);

/*
 * lomqashe_section() goes on by up to n rows.
 *
 * state is read, and overwritten with the state behind the last row.
 * output takes a record of 536 bytes for each row; the bytes behind the last are left as they
 * were:
 *
 *     0 order, 1 pattern, 2 row, 3 held (0 or 1), 4 speed, 5 tempo, 6 global volume, 7 is 0,
 *     8-15 start, 16-19 strike mask (bit k for channel k), 20-23 length; then for each of 32
 *     channels 16 bytes: 0-3 frequency, 4-7 target frequency (binary32), 8 instrument, 9 volume,
 *     10 pan, 11 active, 12 last note, 13 delay tick (0 none), 14 voice global volume,
 *     15 AdLib voice
 *
 * A row's length in micrometres, held or not, is (speed * 5 * rate + remainder) / (2 * tempo), cut
 * down to a whole number. The next row starts so much further on, and what the division leaves is
 * the new remainder: so the starts of a tune do not drift, and rows that are alike may differ by 1.
 * A row whose T commands, all of them together, take the tempo from t to u first makes the
 * remainder remainder * u / t, cut down. No row is longer than 1,992,188.
 *
 * A channel's volume is at most 63, on an AdLib channel 64, and its pan at most 15: states above
 * these limits are refused (17), and from others every row, its record and the state behind it keeps
 * them. The global volume, the voices' global volumes and the stored volumes are not looked at.
 *
 * Gives the number of rows in bits 0 to 15, LOMQASHE_ROWS(), and in bit 16, LOMQASHE_ENDED(),
 * whether the tune has ended. Fewer than n rows come only where it has. Refuses with 255 (state),
 * 9, 11, 17 and 12.
 */
uint32_t lomqashe_section(const uint8_t *orders, size_t orders_size,
                          const uint8_t *cells, size_t cells_size,
                          const uint8_t *samples, size_t samples_size,
                          uint8_t *state, size_t state_size,
                          uint32_t n, uint8_t *output, size_t output_size);

#define LOMQASHE_ROWS(result) ((uint32_t)(result) & 0xffff)
#define LOMQASHE_ENDED(result) (((uint32_t)(result) >> 16) & 1)

/*
 * lomqashe_strikes() lists the channels that a record strikes, each once, in the first bytes of
 * out, from the lowest frequency up; the others of its first 32 bytes become 0, and the bytes
 * behind are left as they were.
 *
 * The frequency of channel k is in the record's bytes 24 + 16 * k to 27 + 16 * k. Equal ones, and 0
 * and -0 are equal, stand by channel number. Minus infinity comes before every number and infinity
 * behind every number. Channels whose frequency is not a number come last, by channel number,
 * whatever its bits.
 *
 * Gives the number of channels, that of the mask's ones. Refuses with 13.
 */
uint32_t lomqashe_strikes(const uint8_t *record, size_t record_size,
                          uint8_t *out, size_t out_size);

/*
 * lomqashe_line() writes a record's line of the sheet to the first bytes of out: order, pattern,
 * row, held, speed, tempo, start, length and the number of strikes, in digits with commas, and a
 * line feed. The bytes behind are left as they were; no 0 is put there.
 *
 * Gives the number of bytes written, at most 64. Refuses with 13.
 */
uint32_t lomqashe_line(const uint8_t *record, size_t record_size,
                       uint8_t *out, size_t out_size);

/*
 * lomqashe_head_step() does what the table's punch head does on a command.
 *
 * registers is 16 bytes, which are read and overwritten; a head starts with all of them 0:
 *
 *     0 the last command, 1 status (bit 0 loaded, bit 1 late, bit 7 interrupt), 2-3 are 0,
 *     4-7 mask, 8-15 position in micrometres
 *
 * command is a byte's number. It is put into byte 0, and then
 *
 *     1 load     takes the record's strike mask and start as mask and position and sets loaded;
 *                where loaded is set it sets late instead, and the row is not taken
 *     2 strike   clears loaded and sets interrupt; where loaded is not set it does nothing more
 *     3 clear    clears late and interrupt
 *
 * and any other does nothing more. record is looked at by a load alone, loaded or not; for others
 * it may be of any length, and NULL with 0. From 16 bytes that are 0 on, whatever the commands, the
 * strikes done and one more where loaded is set are as many as the loads that were taken.
 *
 * Gives 0. Refuses with 255 (command), 15, and on a load 13.
 */
uint32_t lomqashe_head_step(uint8_t *registers, size_t registers_size, uint32_t command,
                            const uint8_t *record, size_t record_size);

/*
 * lomqashe_store() writes the records of m rows in column order, for an archive: like bytes lie
 * together.
 *
 * m is 1 to 65,535. records is m records of 536 bytes one after the other, as lomqashe_section()
 * writes them; any bytes are taken. columns is as long, and all of it is written: 536 columns of m
 * bytes, one after the other. Column c has byte c of each record, from the first record on, the
 * first byte as it is and each other as its difference from the one before, modulo 256:
 *
 *     byte c * m       byte c of record 0
 *     byte c * m + r   byte c of record r minus that of record r - 1, for r above 0
 *
 * with c from 0 to 535 and r below m. m is not written: it is the length of columns over 536.
 *
 * Gives 0. Refuses with 16.
 */
uint32_t lomqashe_store(const uint8_t *records, size_t records_size, uint32_t m,
                        uint8_t *columns, size_t columns_size);

/*
 * lomqashe_restore() undoes lomqashe_store(): it writes m records, all m * 536 bytes of them. Byte c
 * of record r is the sum of the first r + 1 bytes of column c, modulo 256.
 *
 * Every m * 536 bytes are the columns of some records, so that no content is refused. Storing and
 * then restoring gives back the records, and restoring and then storing the columns.
 *
 * Gives 0. Refuses with 16.
 */
uint32_t lomqashe_restore(const uint8_t *columns, size_t columns_size, uint32_t m,
                          uint8_t *records, size_t records_size);

#ifdef __cplusplus
}
#endif

#endif /* LOMQASHE_H */

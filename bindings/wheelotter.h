/* Wheelotter for C: link libdesk.a (bindings/build makes it).
 *
 * Every function may be called with any bytes, models and numbers whatever; each reads only the memory that it is lent and writes only what it
 * says. A slice is a pointer and a length, counted in what it points to; the pointer may not be null, also where the length is 0. Memory that a call
 * writes may not overlap any other memory that the same call is lent: what is proved rests on it. docs/GUIDE.md explains the answers. */
#ifndef WHEELOTTER_H
#define WHEELOTTER_H

#include <stddef.h>
#include <stdint.h>

#ifdef __cplusplus
extern "C" {
#endif

/* Numbers, written by bindings/constants from the crates' own. */

/* The models. */
#define WHEELOTTER_SC 1
#define WHEELOTTER_TSO 2
#define WHEELOTTER_PSO 3
#define WHEELOTTER_WMO 4
#define WHEELOTTER_MODELS 4             /* so many, numbered from 1 */

/* The answers of every function that gives back a uint8_t. (10 is for traces that were not read from a text: none gives it.) */
#define WHEELOTTER_DONE 0               /* the text or file is good; or opened, supposed, taken back, added, packed, unpacked; or none waits */
#define WHEELOTTER_LONG_TEXT 1          /* over 32,768 bytes */
#define WHEELOTTER_LONG_LINE 2          /* over 80 bytes */
#define WHEELOTTER_NO_FORM 3            /* none of the forms, or no ending line feed */
#define WHEELOTTER_PAST_BOUND 4         /* thread, address or value past its bound */
#define WHEELOTTER_TWO_ADDRESSES 5      /* a swap's two addresses differ */
#define WHEELOTTER_FIRST_WRITTEN 6      /* the first value of its address is written */
#define WHEELOTTER_MANY_RECORDS 7       /* record 257, counted from 1 */
#define WHEELOTTER_WRITTEN_BEFORE 8     /* value written before at that address */
#define WHEELOTTER_NO_MODEL 9           /* not 1 to 4 */
#define WHEELOTTER_NO_SOURCE 11         /* somebody reads what nobody wrote */
#define WHEELOTTER_NO_SESSION 12        /* not a session that opening, adding and supposing make */
#define WHEELOTTER_NO_OPERATION 13      /* a record that is a fence or past the end */
#define WHEELOTTER_SAME_TWICE 14        /* one record twice */
#define WHEELOTTER_MANY_PAIRS 15        /* pair 17, counted from 1 */
#define WHEELOTTER_NO_PAIR 16           /* take back, and no pair stands */
#define WHEELOTTER_LATE_INIT 17         /* an init line behind a record, or a second one for its address */
#define WHEELOTTER_NO_FILE 18           /* no packed file: another mark, cut short, or left over */
#define WHEELOTTER_OTHER_VERSION 19     /* a packed file of another version */
#define WHEELOTTER_NO_ENTRY 20          /* no entry of a file, and no record to add: a kind past 3, a first value 0, addresses that do not rise, an unused number other than 0 */
#define WHEELOTTER_NO_ROOM 21           /* the lent memory is too short, and stays as it was */
#define WHEELOTTER_LOST_CORE 22         /* a core appears in the text or file, and a lower one does not */
#define WHEELOTTER_ORDER 64             /* the first valid order */
#define WHEELOTTER_CIRCLE 65            /* the rules run in a circle */
#define WHEELOTTER_NONE_LEFT 66         /* every order was ruled out */
#define WHEELOTTER_HELD 67              /* the first before the second is held */
#define WHEELOTTER_NOT_HELD 68          /* it is not */
#define WHEELOTTER_CONTRADICTED 69      /* the supposed pairs cannot all be */
#define WHEELOTTER_VALID 70             /* the list is a valid order */
#define WHEELOTTER_WRONG_LENGTH 71      /* it has not as many numbers as there are operations */
#define WHEELOTTER_BAD_NUMBER 72        /* a number in it is a fence or past the end */
#define WHEELOTTER_REPEAT 73            /* a record stands in it twice */
#define WHEELOTTER_OUT_OF_TURN 74       /* a kept pair stands the wrong way round */
#define WHEELOTTER_WRONG_VALUE 75       /* a record would read another value */
#define WHEELOTTER_UNDECIDED 76         /* the plain search makes more steps than the limit */
#define WHEELOTTER_NOTHING_WRONG 77     /* a trace that is to be cut down has an order */
#define WHEELOTTER_CUT 78               /* it was cut down */
#define WHEELOTTER_STUCK 25             /* a step is impossible */
#define WHEELOTTER_THROUGH 79           /* all records ran, and the buffers are empty */
#define WHEELOTTER_NOT_THROUGH 80       /* all steps are done, and records are left or entries wait */
#define WHEELOTTER_REPLAYED 81          /* steps that run an order through */
#define WHEELOTTER_NO_ORDER 82          /* the list is no valid order */
#define WHEELOTTER_ACCEPTED 90          /* the list shows that there is no valid order */
#define WHEELOTTER_NOT_ACCEPTED 91      /* it does not show it */
#define WHEELOTTER_WAITS 92             /* a load or swap waits for its source */
#define WHEELOTTER_NOTHING_TO_SHOW 93   /* no paper: the trace has an order, or a source is missing */
#define WHEELOTTER_SHOWN 94             /* a paper was written */

/* Bounds, lengths in bytes, and places. */
#define WHEELOTTER_RECORDS 256          /* a trace has at most so many records */
#define WHEELOTTER_PAIRS 16             /* so many pairs stand in a session at the most */
#define WHEELOTTER_TEXT 32768           /* a text has at most so many bytes */
#define WHEELOTTER_REPORT 8376          /* a buffer of this many bytes holds any answer in words */
#define WHEELOTTER_VERDICT 770          /* a verdict in bytes has so many */
#define WHEELOTTER_OPERATIONS 2         /* where the operations begin in a verdict */
#define WHEELOTTER_RULES 514            /* where the rules begin in a verdict */
#define WHEELOTTER_LIMITED 778          /* a limited verdict in bytes has so many */
#define WHEELOTTER_COUNTED 770          /* where the count of steps begins in a limited verdict, eight bytes */
#define WHEELOTTER_HEAD 8259            /* so many bytes of a session stand before its trace's packed file */
#define WHEELOTTER_STANDING 2           /* where the pairs begin in a session */
#define WHEELOTTER_MARK 66              /* where a session says whether it is contradicted */
#define WHEELOTTER_TABLE 67             /* where the table of what is held begins in a session */
#define WHEELOTTER_SESSION 10363        /* a session has at most so many bytes */
#define WHEELOTTER_FILE 2104            /* a packed file has at most so many bytes */
#define WHEELOTTER_FIRSTS 5             /* where a packed file says how many first values it has, in one byte */
#define WHEELOTTER_COUNT 6              /* where a packed file says how many records it has, in two bytes */
#define WHEELOTTER_ENTRIES 8            /* where the entries begin in a packed file */
#define WHEELOTTER_FIRST 3              /* a first value in a packed file has so many bytes */
#define WHEELOTTER_RECORD 8             /* a record in a packed file has so many bytes */
#define WHEELOTTER_BYTES_AT 2           /* where a packed file or a text begins behind its length */
#define WHEELOTTER_PACKED 2106          /* a buffer of this many bytes holds any packed file behind its length */
#define WHEELOTTER_UNPACKED 32770       /* and of this many the text of any packed file */
#define WHEELOTTER_BLOCK 514            /* the verdict on a run in a night's worth has so many numbers */
#define WHEELOTTER_BLOCK_OPERATIONS 2   /* where the operations begin in it */
#define WHEELOTTER_BLOCK_RULES 258      /* and where the rules begin */
#define WHEELOTTER_JUDGEMENT 4          /* what the judge names has so many bytes */
#define WHEELOTTER_PLACE 2              /* the place of an impossible step, and the number of a record that waits, has so many bytes */
#define WHEELOTTER_STEPS 512            /* a list of possible steps has at most so many */
#define WHEELOTTER_STEPS_AT 2           /* where the steps of an order begin */
#define WHEELOTTER_REPLAY 514           /* the steps of an order in bytes have so many */
#define WHEELOTTER_LIST 2               /* where the list begins in a paper, behind its length in two numbers */
#define WHEELOTTER_OLDS 4               /* where the old numbers begin in what is left of a trace */
#define WHEELOTTER_LEFT 516             /* where the text begins in what is left of a trace */
#define WHEELOTTER_SMALLER 37508        /* what is left of a trace has at most so many bytes */

/* Functions. */

/* Writes the whole answer to a text into out, one line for each model or the line of a refusal, and gives back how many bytes it has. Where
 * out is too short it stays as it is, and 0 comes back. */
size_t wheelotter_report(const uint8_t *text, size_t text_len, uint8_t *out, size_t out_len);

/* The number of what is wrong with a text, 1 to 8, 17 or 22; 0 for a good one. */
uint8_t wheelotter_number(const uint8_t *text, size_t text_len);

/* The line that a text is turned back for, counted from 1; 0 where no line is to blame. */
size_t wheelotter_line(const uint8_t *text, size_t text_len);

/* That line lies in the text from start to before end, without its line feed; both are 0 where no line is to blame. */
size_t wheelotter_start(const uint8_t *text, size_t text_len);
size_t wheelotter_end(const uint8_t *text, size_t text_len);

/* Writes the verdict on a text under a model into the first WHEELOTTER_VERDICT bytes of out, the rest stays:
 *   0                        how many operations it names, in two bytes
 *   WHEELOTTER_OPERATIONS    WHEELOTTER_RECORDS operations, two bytes each
 *   WHEELOTTER_RULES         WHEELOTTER_RECORDS rules, one byte each: of a circle the rule of the edge from the operation in the same place
 *                            to the next, or from the last to the first
 * Numbers of two bytes have the low byte first, here and below. Unused places are 0. Gives back
 *   1 to 8, 17 or 22, or else WHEELOTTER_NO_MODEL   the text is turned back, or there is no such model; out stays as it was;
 *   WHEELOTTER_NO_ROOM                    else out is too short, and stays as it was;
 *   WHEELOTTER_NO_SOURCE                  one operation is named, which read a value that nobody wrote;
 *   WHEELOTTER_CIRCLE                     the operations and rules of the circle shown;
 *   WHEELOTTER_ORDER                      the operations are the first valid order;
 *   WHEELOTTER_NONE_LEFT                  every order was ruled out; none is named. */
uint8_t wheelotter_verdict(const uint8_t *text, size_t text_len, uint8_t model, uint8_t *out, size_t out_len);

/* Writes the verdict on a text under a model within a limit of steps into the first WHEELOTTER_LIMITED bytes of out, the rest stays: the bytes of
 * a verdict as above, and from WHEELOTTER_COUNTED on the count of steps in eight bytes, the low byte first. A step is one operation placed by the plain
 * search of docs/GUIDE.md. Answers as wheelotter_verdict does, with WHEELOTTER_LIMITED bytes for room, and
 *   WHEELOTTER_UNDECIDED                  the plain search makes more steps than the limit: no operation is named, the count is the limit.
 * A missing source and a circle come at any limit, with count 0; an order, and that none is left, with the steps of the plain search. */
uint8_t wheelotter_limited(const uint8_t *text, size_t text_len, uint8_t model, uint64_t limit, uint8_t *out, size_t out_len);

/* Whether a list of record numbers is a valid order of the trace that a text writes, under a model; or which condition fails first. Gives back
 *   1 to 8, 17 or 22, or else WHEELOTTER_NO_MODEL   the text is turned back, or there is no such model; out stays as it was;
 *   WHEELOTTER_NO_ROOM                    else out has fewer than WHEELOTTER_JUDGEMENT bytes, and stays as it was;
 *   WHEELOTTER_VALID                      it is;
 *   WHEELOTTER_WRONG_LENGTH               it has not as many numbers as there are operations;
 *   WHEELOTTER_BAD_NUMBER                 a fence or past the end: the first place, from 0;
 *   WHEELOTTER_REPEAT                     the lowest record that stands in it twice;
 *   WHEELOTTER_OUT_OF_TURN                of the kept pairs the wrong way round the lowest first record, and with it the lowest second;
 *   WHEELOTTER_WRONG_VALUE                the lowest record that would read another value.
 * The place or the record, of a pair both, are laid into out, two bytes each; unused ones are 0, and the rest of out stays. */
uint8_t wheelotter_judge(const uint8_t *text, size_t text_len, uint8_t model, const uint16_t *list, size_t list_len, uint8_t *out, size_t out_len);

/* Runs the trace that a text writes on a plain machine, under WHEELOTTER_SC or WHEELOTTER_TSO, by a list of steps: one below 8 runs the next record of
 * that core, 8 more empties the oldest entry of its store buffer. Gives back
 *   1 to 8, 17 or 22, or else WHEELOTTER_NO_MODEL   the text is turned back, or the model has no machine; out stays as it was;
 *   WHEELOTTER_NO_ROOM                    else out has fewer than WHEELOTTER_PLACE bytes, and stays as it was;
 *   WHEELOTTER_STUCK                      a step is impossible: the first place, from 0;
 *   WHEELOTTER_THROUGH                    all records ran, and the buffers are empty;
 *   WHEELOTTER_NOT_THROUGH                all steps are done, and records are left or entries wait.
 * The place is laid into out, two bytes; it is 0 where none comes with the answer, and the rest of out stays. */
uint8_t wheelotter_run(const uint8_t *text, size_t text_len, uint8_t model, const uint8_t *steps, size_t steps_len, uint8_t *out, size_t out_len);

/* The steps by which that machine runs the trace through in a valid order of its operations, in the first WHEELOTTER_REPLAY bytes of out, the rest
 * stays:
 *   0                      how many steps there are, in two bytes
 *   WHEELOTTER_STEPS_AT    WHEELOTTER_STEPS steps, one byte each; unused places are 0
 * Gives back
 *   1 to 8, 17 or 22, or else WHEELOTTER_NO_MODEL   the text is turned back, or the model has no machine; out stays as it was;
 *   WHEELOTTER_NO_ROOM                    else out is too short, and stays as it was;
 *   WHEELOTTER_REPLAYED                   wheelotter_run runs the steps through;
 *   WHEELOTTER_NO_ORDER                   the list is no valid order (wheelotter_judge tells why); there are no steps. */
uint8_t wheelotter_steps(const uint8_t *text, size_t text_len, uint8_t model, const uint16_t *order, size_t order_len, uint8_t *out, size_t out_len);

/* Cuts the trace that a text writes down, where its verdict under a model is a circle or that none is left, and writes what is left to the front of
 * out, the rest stays; WHEELOTTER_SMALLER bytes are always enough:
 *   0                      how many records are left, in two bytes
 *   2                      how many bytes their text has, in two bytes
 *   WHEELOTTER_OLDS        WHEELOTTER_RECORDS old numbers, two bytes each: the first is the number that record 0 of what is left had; unused
 *                          places are 0
 *   WHEELOTTER_LEFT        the text of what is left: its init lines and its records, threads as they were (it may lack one)
 * Gives back
 *   1 to 8, 17 or 22, or else WHEELOTTER_NO_MODEL   the text is turned back, or there is no such model; out stays as it was;
 *   WHEELOTTER_NO_ROOM                    else out has fewer bytes than the answer, and stays as it was;
 *   WHEELOTTER_NO_SOURCE                  a record read a value that nobody wrote; its number stands in the first two bytes, all else is 0;
 *   WHEELOTTER_NOTHING_WRONG              the trace has an order; no record is left, all is 0;
 *   WHEELOTTER_CUT                        what is left has no order, and no single removal from it leaves a trace without one. */
uint8_t wheelotter_smaller(const uint8_t *text, size_t text_len, uint8_t model, uint8_t *out, size_t out_len);

/* Whether a list of numbers, from anyone, is a paper that shows that the trace of a text has no valid order under a model. docs/PAPERS.md has the layout
 * of papers. Gives back
 *   1 to 8, 17 or 22, or else WHEELOTTER_NO_MODEL   the text is turned back, or there is no such model;
 *   WHEELOTTER_ACCEPTED                   it is, and there is no valid order;
 *   WHEELOTTER_NOT_ACCEPTED               it is not; there may be an order or not. */
uint8_t wheelotter_accepts(const uint8_t *text, size_t text_len, uint8_t model, const uint16_t *list, size_t list_len);

/* Why the trace of a text has no valid order under a model, as a paper that wheelotter_accepts accepts: docs/PAPERS.md has the layout. It is put at the front
 * of out, the rest stays:
 *   0                      how many numbers the list has, the low sixteen bits
 *   1                      and the high ones
 *   WHEELOTTER_LIST        the list
 * Gives back
 *   1 to 8, 17 or 22, or else WHEELOTTER_NO_MODEL   the text is turned back, or there is no such model; out stays as it was;
 *   WHEELOTTER_NOTHING_TO_SHOW            else the trace has an order, or a source is missing; out stays as it was;
 *   WHEELOTTER_NO_ROOM                    else out has fewer places than WHEELOTTER_LIST and the list, and stays as it was; no length is enough for every
 *                                         trace, a few hundred numbers are for nearly all;
 *   WHEELOTTER_SHOWN                      the paper was written. */
uint8_t wheelotter_paper(const uint8_t *text, size_t text_len, uint8_t model, uint16_t *out, size_t out_len);

/* Writes the packed file of the trace that a text writes into out (docs/GUIDE.md has its layout), the rest stays:
 *   0                      how many bytes the file has, in two bytes
 *   WHEELOTTER_BYTES_AT    the file
 * WHEELOTTER_PACKED bytes are always enough. Gives back
 *   1 to 8, 17 or 22      the text is turned back (wheelotter_line tells the line); out stays as it was;
 *   WHEELOTTER_NO_ROOM    else out is too short, and stays as it was;
 *   WHEELOTTER_DONE. */
uint8_t wheelotter_pack(const uint8_t *text, size_t text_len, uint8_t *out, size_t out_len);

/* Writes the text of the trace that a packed file packs into out, init lines of the first values other than 0, addresses rising, and a line for each
 * record; the rest stays:
 *   0                      how many bytes the text has, in two bytes
 *   WHEELOTTER_BYTES_AT    the text
 * WHEELOTTER_UNPACKED bytes are always enough. Gives back
 *   what wheelotter_file_number does    the file is turned back; out stays as it was;
 *   WHEELOTTER_NO_ROOM                  else out is too short, and stays as it was;
 *   WHEELOTTER_DONE. */
uint8_t wheelotter_unpack(const uint8_t *file, size_t file_len, uint8_t *out, size_t out_len);

/* The number of what is wrong with a packed file: WHEELOTTER_NO_FILE, WHEELOTTER_OTHER_VERSION, WHEELOTTER_NO_ENTRY, 4, 6, 7 or 8 as in a text, or
 * WHEELOTTER_LOST_CORE; 0 for a good one. */
uint8_t wheelotter_file_number(const uint8_t *file, size_t file_len);

/* The line that comes with it: the record's number plus 1; 0 where no record is to blame. */
size_t wheelotter_file_line(const uint8_t *file, size_t file_len);

/* Signatures: what the loads of a test program saw, in words of 64 bits. The program is a text's trace, whatever it records as read. How many words and
 * how many reads it has; 0 where the text is turned back. */
size_t wheelotter_words(const uint8_t *text, size_t text_len);
size_t wheelotter_loads(const uint8_t *text, size_t text_len);

/* Packs the reads that a text records into words, as many as wheelotter_words says. Gives back
 *   1 to 8, 17 or 22                       the text is turned back;
 *   26                                     words are not as many;
 *   23 + 256 * record                      a read is not in its list: the lowest record;
 *   0                                      the words are packed, thread by thread.
 * Beside any but 0 the words stay as they were. */
size_t wheelotter_signature(const uint8_t *text, size_t text_len, uint64_t *words, size_t words_len);

/* Unpacks words of the program that a text writes into reads, one for each load and swap by record number, as many as wheelotter_loads says. Gives back
 *   1 to 8, 17 or 22                       the text is turned back;
 *   26                                     words or reads are not as many;
 *   24 + 256 * word                        a word is too large for its digits: the lowest;
 *   0                                      the reads are unpacked.
 * Beside any but 0 the reads stay as they were. */
size_t wheelotter_reads(const uint8_t *text, size_t text_len, const uint64_t *words, size_t words_len, uint16_t *reads, size_t reads_len);

/* The verdicts on a night's worth of runs of the program that a text writes, under a model. A run is told by its words, as many as wheelotter_words says; the words of
 * the runs stand one behind the other. There are as many runs as out has blocks of WHEELOTTER_BLOCK numbers; the block of a run is
 *   0                             its kind, as wheelotter_verdict answers: WHEELOTTER_ORDER, WHEELOTTER_CIRCLE, WHEELOTTER_NONE_LEFT or WHEELOTTER_NO_SOURCE
 *   1                             how many operations it names
 *   WHEELOTTER_BLOCK_OPERATIONS   WHEELOTTER_RECORDS operations: of a circle, or the first valid order; unused places are 0
 *   WHEELOTTER_BLOCK_RULES        WHEELOTTER_RECORDS rules, of a circle as in a verdict; unused places are 0
 * Each is what wheelotter_verdict says of the program with the reads that wheelotter_reads makes of the run's words. Gives back
 *   1 to 8, 17 or 22                       the text is turned back;
 *   WHEELOTTER_NO_MODEL                    else there is no such model;
 *   26                                     else out is no whole number of blocks, or the words are not those of as many runs;
 *   24 + 256 * word + 65536 * run          else a word is too large for its digits: the first such run, and its lowest word;
 *   0                                      the verdicts stand in out.
 * Beside any but 0 out stays as it was. */
size_t wheelotter_night(const uint8_t *text, size_t text_len, uint8_t model, const uint64_t *words, size_t words_len, uint16_t *out, size_t out_len);

/* A session in bytes, WHEELOTTER_HEAD and as many more as its trace's packed file has:
 *   0                      the model
 *   1                      how many pairs stand, at most WHEELOTTER_PAIRS
 *   WHEELOTTER_STANDING    WHEELOTTER_PAIRS pairs, first then second, two bytes each; unused places are 0
 *   WHEELOTTER_MARK        1 where contradicted, else 0
 *   WHEELOTTER_TABLE       a bit for each two records: bit y % 8 of byte WHEELOTTER_TABLE + x * (WHEELOTTER_RECORDS / 8) + y / 8 is 1 where
 *                          x before y is held; all are 0 while contradicted
 *   WHEELOTTER_HEAD        the packed file of the trace (docs/GUIDE.md has its layout), to the end of the slice
 * The file says how long it is: WHEELOTTER_ENTRIES + WHEELOTTER_FIRST * (its byte WHEELOTTER_FIRSTS) + WHEELOTTER_RECORD * (the number at its
 * byte WHEELOTTER_COUNT). Two sessions are equal exactly when their bytes are, from whatever text they were opened. They may be copied, kept and
 * sent; bytes that are not such a session, made by opening, adding and supposing, get WHEELOTTER_NO_SESSION from every call and stay as they are. */

/* Opens a session on a text under a model, at the front of session, of which WHEELOTTER_SESSION bytes are always enough; the rest stays. Hand on
 * just the session's bytes. Gives back
 *   1 to 8, 17 or 22, or else WHEELOTTER_NO_MODEL   no session is opened: where there is
 *                         room, WHEELOTTER_HEAD + WHEELOTTER_ENTRIES bytes, the front is that of the empty text under model 1; the rest stays;
 *   WHEELOTTER_NO_ROOM    else session is too short, and stays as it was;
 *   WHEELOTTER_DONE. */
uint8_t wheelotter_open(const uint8_t *text, size_t text_len, uint8_t model, uint8_t *session, size_t session_len);

/* The same on a packed file, which is held to what wheelotter_file_number tells: 18, 19, 20, 4, 6, 7, 8 or 22 comes before WHEELOTTER_NO_MODEL. The file
 * that a session keeps behind its head may skip a core while records still come; opened by itself it is turned back as 22 until none is missing. */
uint8_t wheelotter_open_file(const uint8_t *file, size_t file_len, uint8_t model, uint8_t *session, size_t session_len);

/* Supposes that record x came before record y: WHEELOTTER_DONE, or WHEELOTTER_NO_SESSION to WHEELOTTER_MANY_PAIRS, and the session stays
 * as it was. */
uint8_t wheelotter_suppose(uint8_t *session, size_t session_len, size_t x, size_t y);

/* Takes the latest pair back: WHEELOTTER_DONE, or WHEELOTTER_NO_SESSION or WHEELOTTER_NO_PAIR, and the session stays as it was. */
uint8_t wheelotter_take_back(uint8_t *session, size_t session_len);

/* Asks whether x before y is held: WHEELOTTER_HELD, WHEELOTTER_NOT_HELD, WHEELOTTER_CONTRADICTED, or WHEELOTTER_NO_SESSION to
 * WHEELOTTER_SAME_TWICE. */
uint8_t wheelotter_ask(const uint8_t *session, size_t session_len, size_t x, size_t y);

/* Adds a record behind those of a session. session_len is the session's length and WHEELOTTER_RECORD more: the session stands before the last
 * WHEELOTTER_RECORD bytes, whatever these hold. The record comes as its fields: kind (0 load, 1 store, 2 swap, 3 fence), thread, address, the value
 * read and the value written; what the kind does not carry is 0. Gives back
 *   WHEELOTTER_NO_SESSION             no session stands there;
 *   WHEELOTTER_NO_ENTRY               else the fields are no record;
 *   WHEELOTTER_PAST_BOUND, WHEELOTTER_FIRST_WRITTEN, WHEELOTTER_MANY_RECORDS, WHEELOTTER_WRITTEN_BEFORE   else the record may not follow;
 *   WHEELOTTER_DONE                   all session_len bytes are the session with the record; the pairs stand, and only the table, the mark, the file's
 *                                     count of records and the last WHEELOTTER_RECORD bytes may have changed.
 * Beside a refusal all bytes stay. A load or swap whose source is not recorded yet waits: nothing is held on its account until the source comes. */
uint8_t wheelotter_add(uint8_t *session, size_t session_len, uint8_t kind, uint8_t thread, uint8_t address, uint16_t read, uint16_t written);

/* The lowest record that waits for its source, laid into the first WHEELOTTER_PLACE bytes of out, the rest stays. Gives back
 *   WHEELOTTER_NO_SESSION             and out stays as it was;
 *   WHEELOTTER_NO_ROOM                else out is too short, and stays as it was;
 *   WHEELOTTER_WAITS                  it waits;
 *   WHEELOTTER_DONE                   none waits; the number is 0. */
uint8_t wheelotter_waiting(const uint8_t *session, size_t session_len, uint8_t *out, size_t out_len);

#ifdef __cplusplus
}
#endif

#endif

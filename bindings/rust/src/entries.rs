//! The library's entries as they are, over slices and numbers. Any bytes, models and numbers may be handed in. The answers are the numbers
//! of [`Answer`](crate::Answer), unless said otherwise.

mod linked {
    #[link(name = "desk", kind = "static")]
    extern "C" {
        pub fn wheelotter_report(text: *const u8, text_len: usize, out: *mut u8, out_len: usize) -> usize;
        pub fn wheelotter_number(text: *const u8, text_len: usize) -> u8;
        pub fn wheelotter_line(text: *const u8, text_len: usize) -> usize;
        pub fn wheelotter_start(text: *const u8, text_len: usize) -> usize;
        pub fn wheelotter_end(text: *const u8, text_len: usize) -> usize;
        pub fn wheelotter_verdict(text: *const u8, text_len: usize, model: u8, out: *mut u8, out_len: usize) -> u8;
        pub fn wheelotter_limited(text: *const u8, text_len: usize, model: u8, limit: u64, out: *mut u8, out_len: usize) -> u8;
        pub fn wheelotter_judge(
            text: *const u8,
            text_len: usize,
            model: u8,
            list: *const u16,
            list_len: usize,
            out: *mut u8,
            out_len: usize,
        ) -> u8;
        pub fn wheelotter_run(
            text: *const u8,
            text_len: usize,
            model: u8,
            steps: *const u8,
            steps_len: usize,
            out: *mut u8,
            out_len: usize,
        ) -> u8;
        pub fn wheelotter_steps(
            text: *const u8,
            text_len: usize,
            model: u8,
            order: *const u16,
            order_len: usize,
            out: *mut u8,
            out_len: usize,
        ) -> u8;
        pub fn wheelotter_smaller(text: *const u8, text_len: usize, model: u8, out: *mut u8, out_len: usize) -> u8;
        pub fn wheelotter_accepts(text: *const u8, text_len: usize, model: u8, list: *const u16, list_len: usize) -> u8;
        pub fn wheelotter_paper(text: *const u8, text_len: usize, model: u8, out: *mut u16, out_len: usize) -> u8;
        pub fn wheelotter_pack(text: *const u8, text_len: usize, out: *mut u8, out_len: usize) -> u8;
        pub fn wheelotter_unpack(file: *const u8, file_len: usize, out: *mut u8, out_len: usize) -> u8;
        pub fn wheelotter_file_number(file: *const u8, file_len: usize) -> u8;
        pub fn wheelotter_file_line(file: *const u8, file_len: usize) -> usize;
        pub fn wheelotter_words(text: *const u8, text_len: usize) -> usize;
        pub fn wheelotter_loads(text: *const u8, text_len: usize) -> usize;
        pub fn wheelotter_signature(text: *const u8, text_len: usize, words: *mut u64, words_len: usize) -> usize;
        pub fn wheelotter_reads(
            text: *const u8,
            text_len: usize,
            words: *const u64,
            words_len: usize,
            reads: *mut u16,
            reads_len: usize,
        ) -> usize;
        pub fn wheelotter_night(
            text: *const u8,
            text_len: usize,
            model: u8,
            words: *const u64,
            words_len: usize,
            out: *mut u16,
            out_len: usize,
        ) -> usize;
        pub fn wheelotter_open(text: *const u8, text_len: usize, model: u8, session: *mut u8, session_len: usize) -> u8;
        pub fn wheelotter_open_file(file: *const u8, file_len: usize, model: u8, session: *mut u8, session_len: usize) -> u8;
        pub fn wheelotter_suppose(session: *mut u8, session_len: usize, x: usize, y: usize) -> u8;
        pub fn wheelotter_take_back(session: *mut u8, session_len: usize) -> u8;
        pub fn wheelotter_ask(session: *const u8, session_len: usize, x: usize, y: usize) -> u8;
        pub fn wheelotter_add(session: *mut u8, session_len: usize, kind: u8, thread: u8, address: u8, read: u16, written: u16) -> u8;
        pub fn wheelotter_waiting(session: *const u8, session_len: usize, out: *mut u8, out_len: usize) -> u8;
    }
}

// SAFETY, for each call below: a slice's pointer is never null and is lent with its own length for the time of the call, and the library reads
// and writes nothing else. A slice that is lent for reading it does not write; one that is lent for writing overlaps no other, since Rust lends
// it to nobody else.

/// Writes the whole answer to a text into `out` and gives back how many bytes it has; 0, and `out` as it was, where it is too short.
pub fn report(text: &[u8], out: &mut [u8]) -> usize {
    unsafe { linked::wheelotter_report(text.as_ptr(), text.len(), out.as_mut_ptr(), out.len()) }
}

/// The number of what is wrong with a text, 1 to 8, 17 or 22; 0 for a good one.
pub fn number(text: &[u8]) -> u8 {
    unsafe { linked::wheelotter_number(text.as_ptr(), text.len()) }
}

/// The line that a text is turned back for, counted from 1; 0 where no line is to blame.
pub fn line(text: &[u8]) -> usize {
    unsafe { linked::wheelotter_line(text.as_ptr(), text.len()) }
}

/// Where the bad line starts in the text; 0 where no line is to blame.
pub fn start(text: &[u8]) -> usize {
    unsafe { linked::wheelotter_start(text.as_ptr(), text.len()) }
}

/// Where the bad line ends, before its line feed; 0 where no line is to blame.
pub fn end(text: &[u8]) -> usize {
    unsafe { linked::wheelotter_end(text.as_ptr(), text.len()) }
}

/// The verdict under a model, in the first [`VERDICT`](crate::VERDICT) bytes of `out`: how many operations it names, from
/// [`OPERATIONS`](crate::OPERATIONS) on the operations, and from [`RULES`](crate::RULES) on the rules of a circle; numbers of records, and how many
/// there are, in two bytes, the low one first; unused places are 0. Where the text or the model is turned back, or else `out` is shorter, it stays
/// as it was.
pub fn verdict(text: &[u8], model: u8, out: &mut [u8]) -> u8 {
    unsafe { linked::wheelotter_verdict(text.as_ptr(), text.len(), model, out.as_mut_ptr(), out.len()) }
}

/// The same within a limit of steps of the plain search, in the first [`LIMITED`](crate::LIMITED) bytes of `out`: the verdict's bytes, and from
/// [`COUNTED`](crate::COUNTED) on the count of steps in eight bytes, the low one first. Undecided names no operation, and its count is the limit.
pub fn limited(text: &[u8], model: u8, limit: u64, out: &mut [u8]) -> u8 {
    unsafe { linked::wheelotter_limited(text.as_ptr(), text.len(), model, limit, out.as_mut_ptr(), out.len()) }
}

/// Whether a list of record numbers is a valid order of the trace that a text writes, under a model, or which condition fails first; the place or
/// the records concerned in the first [`JUDGEMENT`](crate::JUDGEMENT) bytes of `out`, two each, the low one first. Where the text or the model is
/// turned back, or else `out` is shorter, it stays as it was.
pub fn judge(text: &[u8], model: u8, list: &[u16], out: &mut [u8]) -> u8 {
    unsafe { linked::wheelotter_judge(text.as_ptr(), text.len(), model, list.as_ptr(), list.len(), out.as_mut_ptr(), out.len()) }
}

/// Runs the trace that a text writes on a plain machine, under SC or TSO, by a list of steps: one below 8 runs the next record of that core, 8 more
/// empties the oldest entry of its store buffer. The place of the first impossible step in the first [`PLACE`](crate::PLACE) bytes of `out`, the low
/// one first; 0 where there is none. Where the text or the model is turned back, or else `out` is shorter, it stays as it was.
pub fn run(text: &[u8], model: u8, steps: &[u8], out: &mut [u8]) -> u8 {
    unsafe { linked::wheelotter_run(text.as_ptr(), text.len(), model, steps.as_ptr(), steps.len(), out.as_mut_ptr(), out.len()) }
}

/// The steps by which that machine runs the trace through in a valid order, in the first [`REPLAY`](crate::REPLAY) bytes of `out`: how many, in two
/// bytes, the low one first, and from [`STEPS_AT`](crate::STEPS_AT) on the steps; unused places are 0. Where the text or the model is turned back, or
/// else `out` is shorter, it stays as it was.
pub fn steps(text: &[u8], model: u8, order: &[u16], out: &mut [u8]) -> u8 {
    unsafe { linked::wheelotter_steps(text.as_ptr(), text.len(), model, order.as_ptr(), order.len(), out.as_mut_ptr(), out.len()) }
}

/// Cuts a faulty trace down under a model: how many records are left and how many bytes their text has, two bytes each, from [`OLDS`](crate::OLDS) on
/// the old numbers and from [`LEFT`](crate::LEFT) on the text; beside a missing source the record that lacks it stands first. Where the text or the
/// model is turned back, or else `out` has fewer bytes than the answer, it stays as it was.
pub fn smaller(text: &[u8], model: u8, out: &mut [u8]) -> u8 {
    unsafe { linked::wheelotter_smaller(text.as_ptr(), text.len(), model, out.as_mut_ptr(), out.len()) }
}

/// Whether a list of numbers, from anyone, is a paper that shows that the trace of a text has no valid order under a model.
pub fn accepts(text: &[u8], model: u8, list: &[u16]) -> u8 {
    unsafe { linked::wheelotter_accepts(text.as_ptr(), text.len(), model, list.as_ptr(), list.len()) }
}

/// Why the trace of a text has no valid order under a model, as a paper at the front of `out`: how many numbers the list has, its low sixteen bits and its high
/// ones, and from [`LIST`](crate::LIST) on the list. Where the text or the model is turned back, there is nothing to show, or `out` has fewer places than
/// that, it stays as it was.
pub fn paper(text: &[u8], model: u8, out: &mut [u16]) -> u8 {
    unsafe { linked::wheelotter_paper(text.as_ptr(), text.len(), model, out.as_mut_ptr(), out.len()) }
}

/// The packed file of the trace that a text writes, at the front of `out`: its length in two bytes, the low one first, and from
/// [`BYTES_AT`](crate::BYTES_AT) on the file. Where the text is turned back, or else `out` is too short, it stays as it was.
pub fn pack(text: &[u8], out: &mut [u8]) -> u8 {
    unsafe { linked::wheelotter_pack(text.as_ptr(), text.len(), out.as_mut_ptr(), out.len()) }
}

/// The text of the trace that a packed file packs, at the front of `out`: its length in two bytes, the low one first, and from
/// [`BYTES_AT`](crate::BYTES_AT) on the text. Where the file is turned back, or else `out` is too short, it stays as it was.
pub fn unpack(file: &[u8], out: &mut [u8]) -> u8 {
    unsafe { linked::wheelotter_unpack(file.as_ptr(), file.len(), out.as_mut_ptr(), out.len()) }
}

/// The number of what is wrong with a packed file; 0 for a good one.
pub fn file_number(file: &[u8]) -> u8 {
    unsafe { linked::wheelotter_file_number(file.as_ptr(), file.len()) }
}

/// The line that comes with it, the record's number plus 1; 0 where no record is to blame.
pub fn file_line(file: &[u8]) -> usize {
    unsafe { linked::wheelotter_file_line(file.as_ptr(), file.len()) }
}

/// How many words of 64 bits the reads of a text's program take; 0 where the text is turned back.
pub fn words(text: &[u8]) -> usize {
    unsafe { linked::wheelotter_words(text.as_ptr(), text.len()) }
}

/// How many loads and swaps it has; 0 where the text is turned back.
pub fn loads(text: &[u8]) -> usize {
    unsafe { linked::wheelotter_loads(text.as_ptr(), text.len()) }
}

/// Packs the reads that a text records into `words`, as many as [`words`] says. 0; or what is wrong with the text; or 26 where `words` are not as many; or
/// 23 and 256 times the lowest record whose read is not in its list. Beside any but 0 `words` stay as they were.
pub fn signature(text: &[u8], words: &mut [u64]) -> usize {
    unsafe { linked::wheelotter_signature(text.as_ptr(), text.len(), words.as_mut_ptr(), words.len()) }
}

/// Unpacks words of a text's program into `reads`, one for each load and swap by record number, as many as [`loads`] says. 0; or what is wrong with the
/// text; or 26 where words or reads are not as many; or 24 and 256 times the lowest word that is too large. Beside any but 0 `reads` stay as they were.
pub fn reads(text: &[u8], words: &[u64], reads: &mut [u16]) -> usize {
    unsafe { linked::wheelotter_reads(text.as_ptr(), text.len(), words.as_ptr(), words.len(), reads.as_mut_ptr(), reads.len()) }
}

/// The verdicts on runs of a text's program under a model, told by their words, as many a run as [`words`] says; as many runs as `out` has blocks of
/// [`BLOCK`](crate::BLOCK) numbers. 0; or what is wrong with the text; or 9; or 26 where `out` is no whole number of blocks or the words are not those of as many runs; or
/// 24 and 256 times the lowest word and 65536 times the first run where it is too large. Beside any but 0 `out` stays as it was.
pub fn night(text: &[u8], model: u8, words: &[u64], out: &mut [u16]) -> usize {
    unsafe { linked::wheelotter_night(text.as_ptr(), text.len(), model, words.as_ptr(), words.len(), out.as_mut_ptr(), out.len()) }
}

/// Opens a session on a text in the first [`HEAD`](crate::HEAD) and as many bytes more as the packed file of its trace has, at most
/// [`SESSION`](crate::SESSION); the rest of `session` stays. Where the text or the model forbids it, the front is the session of the
/// empty text under model 1, if there is room for it. Where else `session` is too short it stays as it was.
pub fn open(text: &[u8], model: u8, session: &mut [u8]) -> u8 {
    unsafe { linked::wheelotter_open(text.as_ptr(), text.len(), model, session.as_mut_ptr(), session.len()) }
}

/// The same on a packed file: what is wrong with the file comes first, a lost core too.
pub fn open_file(file: &[u8], model: u8, session: &mut [u8]) -> u8 {
    unsafe { linked::wheelotter_open_file(file.as_ptr(), file.len(), model, session.as_mut_ptr(), session.len()) }
}

/// Supposes that x came before y. Refused, the session stays as it was.
pub fn suppose(session: &mut [u8], x: usize, y: usize) -> u8 {
    unsafe { linked::wheelotter_suppose(session.as_mut_ptr(), session.len(), x, y) }
}

/// Takes the latest pair back. Refused, the session stays as it was.
pub fn take_back(session: &mut [u8]) -> u8 {
    unsafe { linked::wheelotter_take_back(session.as_mut_ptr(), session.len()) }
}

/// Asks whether x before y is held.
pub fn ask(session: &[u8], x: usize, y: usize) -> u8 {
    unsafe { linked::wheelotter_ask(session.as_ptr(), session.len(), x, y) }
}

/// Adds a record, by its fields, to the session that stands before the last [`RECORD`](crate::RECORD) bytes; all of them are then the longer session.
/// Refused, all stay as they were.
pub fn add(session: &mut [u8], kind: u8, thread: u8, address: u8, read: u16, written: u16) -> u8 {
    unsafe { linked::wheelotter_add(session.as_mut_ptr(), session.len(), kind, thread, address, read, written) }
}

/// The lowest record that waits for its source, in the first [`PLACE`](crate::PLACE) bytes of `out`, the low one first; 0 where none does.
pub fn waiting(session: &[u8], out: &mut [u8]) -> u8 {
    unsafe { linked::wheelotter_waiting(session.as_ptr(), session.len(), out.as_mut_ptr(), out.len()) }
}

//! How much stack every entry uses: it is called on a thread whose stack is memory of ours, painted beforehand; what is no longer painted was used.

use crate::calls::{Call, CALLS};
use crate::case::Case;
use crate::chance::Chance;
use crate::draw::{text_of, FAMILIES};
use crate::library::{self, Lent};
use simple::Record;
use std::ffi::c_void;
use std::ptr;
use wheelotter::{HEAD, RECORDS, TEXT};

/// The stack that is painted: much more than any entry takes.
const ROOM: usize = 1 << 21;
const PAINT: u8 = 0xA5;

/// Where the C library keeps what a thread is made with: more bytes than it asks for.
#[repr(C, align(16))]
struct Manner([u8; 256]);

type Start = extern "C" fn(*mut c_void) -> *mut c_void;

extern "C" {
    fn pthread_attr_init(manner: *mut Manner) -> i32;
    fn pthread_attr_setstack(manner: *mut Manner, stack: *mut c_void, size: usize) -> i32;
    fn pthread_attr_destroy(manner: *mut Manner) -> i32;
    fn pthread_create(thread: *mut usize, manner: *const Manner, start: Start, work: *mut c_void) -> i32;
    fn pthread_join(thread: usize, back: *mut *mut c_void) -> i32;
}

/// The memory that is lent as a stack, aligned as stacks are.
#[repr(C, align(65536))]
struct Stack([u8; ROOM]);

struct Work<'a> {
    call: &'a mut dyn FnMut(),
    /// Where the stack stood when the call was made.
    from: usize,
}

extern "C" fn start(work: *mut c_void) -> *mut c_void {
    // SAFETY: it is the work that `used` lends and leaves alone until this thread has ended.
    let work = unsafe { &mut *work.cast::<Work>() };
    let here = 0u8;
    work.from = ptr::from_ref(&here) as usize;
    (work.call)();
    ptr::null_mut()
}

/// How many bytes of stack a call used: down to the lowest that is no longer painted, and up to where this thread began it, so about a hundred too many.
fn used(stack: &mut Stack, call: &mut dyn FnMut()) -> usize {
    stack.0.fill(PAINT);
    let (mut manner, mut thread, mut work) = (Manner([0; 256]), 0, Work { call, from: 0 });
    let (lent, low) = (ptr::from_mut(stack), ptr::from_ref(stack) as usize);
    // SAFETY: the stack is lent to nobody else, and the thread has ended before it, the work or the manner is looked at again.
    let ended = unsafe {
        pthread_attr_init(&mut manner) == 0
            && pthread_attr_setstack(&mut manner, lent.cast(), ROOM) == 0
            && pthread_create(&mut thread, &manner, start, ptr::from_mut(&mut work).cast()) == 0
            && pthread_join(thread, ptr::null_mut()) == 0
            && pthread_attr_destroy(&mut manner) == 0
    };
    let deepest = stack.0.iter().position(|&byte| byte != PAINT).unwrap_or(0);
    assert!(ended && deepest > 0, "no thread, or its stack was too small");
    work.from - low - deepest
}

/// The kinds of cases: a family each, and what is turned back.
const KINDS: usize = FAMILIES.len() + 1;

/// So many ways to spoil a case; with the last one only its session is turned back.
const SPOILT: u64 = 9;

/// A line for each entry: the most bytes of stack over so many traces of each family and model, the first few of them spoilt too.
pub fn stack(traces: u64, seed: u64) {
    let records = library::most_records();
    let mut stack = Box::new(Stack([0; ROOM]));
    let mut most = vec![[0; KINDS]; CALLS.len()];
    for (kind, family) in FAMILIES.iter().enumerate() {
        for model in library::models() {
            for number in 0..traces {
                let mut chance = Chance::of_case(seed, number);
                let trace = (family.draw)(&mut chance, records, model);
                let mut case = Case::of(&mut chance, &trace, model);
                note(&mut stack, &case, kind, &mut most, |_| true);
                if number < SPOILT {
                    spoil(&mut case, &trace, number);
                    note(&mut stack, &case, KINDS - 1, &mut most, |call| call.session || number + 1 < SPOILT);
                }
                eprint!("\r{}, {}: {} of {traces}  ", family.name, model.name(), number + 1);
            }
            eprintln!();
        }
    }
    print(&most);
}

fn note(stack: &mut Stack, case: &Case, kind: usize, most: &mut [[usize; KINDS]], wanted: impl Fn(&Call) -> bool) {
    let mut lent = Lent::new();
    for (call, most) in CALLS.iter().zip(most).filter(|(call, _)| call.applies(case) && wanted(call)) {
        lent.ready_for(case);
        most[kind] = most[kind].max(used(stack, &mut || (call.library)(case, &mut lent)));
    }
}

fn print(most: &[[usize; KINDS]]) {
    println!("| entry, most bytes of stack | {} | turned back | of all |", FAMILIES.map(|family| family.name).join(" | "));
    println!("|---|{}---|", "---|".repeat(KINDS));
    for (call, most) in CALLS.iter().zip(most) {
        let all = most.iter().max().unwrap_or(&0);
        println!("| {} | {} | {all} |", call.name, most.map(|bytes| bytes.to_string()).join(" | "));
    }
}

/// Makes a text that is turned back for its last line, or is too long, by numbers 1 to 8, and so a session that is none; or only spoils the session.
fn spoil(case: &mut Case, trace: &[Record], number: u64) {
    let last = |line: &[u8]| [&text_of(&trace[..trace.len() - 1]), line].concat();
    let store = trace.iter().find(|record| matches!(record, Record::Store { .. }));
    let text = match number {
        0 => b"0: sync\n".repeat(TEXT / 8 + 1),
        1 => last(&[b' '; 81]),
        2 => last(b"0: M[0] = 1\n"),
        3 => last(b"8: sync\n"),
        4 => last(b"0: { M[0] == 0; M[1] := 65535 }\n"),
        5 => last(b"0: M[0] := 0\n"),
        6 => [&case.text[..], &b"0: sync\n".repeat(RECORDS)].concat(),
        7 => last(&store.map_or(Vec::new(), |store| text_of(&[*store]))),
        _ => case.text.clone(),
    };
    case.text = text;
    if !case.session.is_empty() {
        case.session[HEAD - 1] ^= 1;
        case.session.truncate(HEAD);
        case.session.extend_from_slice(&case.text);
    }
}

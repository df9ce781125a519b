//! That the comparison finds what it is there to find: desks that are wrong in one way each, and one that is right.

use entries::compare::compared;
use entries::desk::Desk;
use second::desk::{
    self, head_of, number_at, place_of, put_number, Page, CONTRADICTED_AT, DONE, HEAD, OPERATIONS_AT, PAIRS_AT, RULES_AT, VERDICT,
};
use second::desk::{lay_left, CUT, LEFT, OLDS_AT};
use second::desk::{Fields, NOT_THROUGH, NO_ENTRY, NO_ORDER, PLACE, REPLAY, REPLAYED, STEPS_AT, STUCK, THROUGH, WAITS};
use second::desk::{ACCEPTED, LIST_AT, NOTHING_TO_SHOW, NOT_ACCEPTED, SHOWN};
use second::desk::{
    BAD_NUMBER, CIRCLE, CONTRADICTED, JUDGEMENT, LIMITED, NONE_LEFT, NOT_HELD, NO_ROOM, NO_SOURCE, ORDER, REPEAT, UNDECIDED, VALID,
    WRONG_LENGTH, WRONG_VALUE,
};
use second::families::FAMILIES;
use second::nights::{self, night_into, BLOCK};
use second::packed::{file_of, read_entries, FIRST, HEADER, RECORD};
use second::packs::{self, BYTES_AT};
use second::session::{self, Session, MOST_PAIRS};
use second::signatures::{layout, list, loads, pack_into, unpack_into};
use second::smaller::{faulty, without, Part};
use second::trace::{text_of, Model, Record, Trace};
use std::collections::BTreeMap;
use std::sync::atomic::{AtomicUsize, Ordering};
use std::sync::Mutex;
use std::thread;

const STEPS: u64 = 20_000;

/// The second program's own answers, but for one fault. `RIGHT` has none.
struct Faulty(&'static str);

const RIGHT: &str = "none";

const FAULTS: [&str; 146] = [
    "report: a letter too far",
    "report: short memory written",
    "report: length of one line",
    "number: 8 told as 7",
    "number: any number past a bound is 3",
    "number: 17 told as 8",
    "number: 17 before 4",
    "number: an init of 0 is none",
    "number: any threads",
    "line: counted from 0",
    "line: a missing core is the last line's",
    "line: init lines are not counted",
    "start: the text's own",
    "start: an empty line has none",
    "end: with the feed",
    "verdict: one byte less is enough",
    "verdict: room before the text",
    "verdict: room before the model",
    "verdict: refused, and memory wiped",
    "verdict: high byte first",
    "verdict: what lies behind is wiped",
    "verdict: unused places stay",
    "verdict: the model first",
    "verdict: no rules",
    "verdict: some other order",
    "verdict: every trace has an order",
    "verdict: any model is SC",
    "verdict: memory starts at 0",
    "limited: one step less",
    "limited: one step more is counted",
    "limited: undecided with count 0",
    "limited: a circle costs a step",
    "limited: the high byte first",
    "limited: undecided names something",
    "limited: room for a verdict is enough",
    "judge: yes to all",
    "judge: repeats",
    "judge: no model",
    "judge: low bytes of numbers",
    "judge: room first",
    "judge: what lies behind is wiped",
    "judge: the pair turned round",
    "judge: places from 1",
    "judge: the first repeat",
    "judge: the first wrong value",
    "judge: a bad number is a wrong length",
    "run: places from 1",
    "run: the last place",
    "run: done is through",
    "run: through is done",
    "run: room first",
    "run: PSO has a machine",
    "run: what lies behind is wiped",
    "run: buffers are passed by",
    "steps: of any list",
    "steps: no fences at the end",
    "steps: unused places stay",
    "steps: PSO has a machine",
    "smaller: one byte less is enough",
    "smaller: what lies behind is wiped",
    "smaller: memory starts at 0",
    "smaller: new numbers for old",
    "smaller: the highest record first",
    "smaller: fences stay",
    "smaller: one step deep",
    "smaller: a swap's readers stay",
    "accepts: every list",
    "accepts: numbers left over",
    "accepts: any model is SC",
    "accepts: no model",
    "paper: nothing to show",
    "paper: one number less is enough",
    "paper: written before it is counted",
    "paper: the circle left out",
    "paper: an edge twice",
    "paper: a split that is not needed",
    "paper: what lies behind is wiped",
    "paper: no model",
    "open: one byte less is enough",
    "open: room before the text",
    "open: refused, and too short is written",
    "open: refused, and memory stays",
    "open: what lies behind is wiped",
    "open: a missing source refused",
    "open: a circle refused",
    "suppose: a seventeenth pair",
    "suppose: equal before a fence",
    "suppose: the table left alone",
    "suppose: its own edge only",
    "suppose: a held pair left out",
    "suppose: low bytes of numbers",
    "suppose: refused while contradicted",
    "take back: all pairs",
    "take back: ignored",
    "ask: backwards",
    "ask: contradicted holds nothing",
    "add: a missing source refused",
    "add: the table left alone",
    "add: pairs dropped",
    "add: refused, and memory wiped",
    "add: numbers before 12",
    "add: 8 by what was read",
    "add: any kind past 3 is a fence",
    "add: unused numbers are not looked at",
    "add: a source settles nothing that waited",
    "waiting: the last one",
    "waiting: short memory written",
    "session: any table",
    "session: any byte for contradicted",
    "session: unused pairs are not looked at",
    "session: low bytes of pairs",
    "session: the table by bytes",
    "session: pairs in order only",
    "session: what lies behind its file is not looked at",
    "session: no core may be missing",
    "pack: one byte less is enough",
    "pack: room before the text",
    "pack: what lies behind is wiped",
    "pack: the count's high byte first",
    "unpack: the file's length",
    "unpack: refused, and memory wiped",
    "file: any threads",
    "file: 4 before 20",
    "file: the line is the record",
    "file: the length before the version",
    "open file: a lost core taken",
    "open file: one byte less is enough",
    "open file: the model first",
    "open file: refused, and memory stays",
    "words: one for every thread",
    "loads: stores too",
    "signature: last load least",
    "signature: own writes listed",
    "signature: first value last",
    "signature: threads in one word",
    "signature: written before it is checked",
    "signature: 23 before 26",
    "reads: the largest word refused",
    "reads: too large a word taken",
    "reads: reads by thread",
    "night: the program's own reads",
    "night: run and word exchanged",
    "night: any model is SC",
    "night: no model",
    "night: written before it is checked",
    "night: no rules",
];

impl Faulty {
    fn is(&self, fault: &str) -> bool {
        self.0 == fault
    }

    fn page<'a>(&self, text: &'a [u8]) -> Page<'a> {
        Page::new(text, STEPS)
    }

    /// The bytes as a desk with a fault in its looking at them would see them; None where it refuses them.
    fn seen(&self, bytes: &[u8]) -> Option<Vec<u8>> {
        let mut seen = bytes.to_vec();
        if seen.len() < HEAD {
            return None;
        }
        if self.is("session: any byte for contradicted") {
            seen[CONTRADICTED_AT] = seen[CONTRADICTED_AT].min(1);
        }
        if self.is("session: unused pairs are not looked at") && usize::from(seen[1]) <= MOST_PAIRS {
            let used = PAIRS_AT + 4 * usize::from(seen[1]);
            seen[used..CONTRADICTED_AT].fill(0);
        }
        if self.is("session: low bytes of pairs") {
            seen[PAIRS_AT..CONTRADICTED_AT].chunks_mut(2).for_each(|number| number[1] = 0);
        }
        if self.is("session: the table by bytes") {
            let made = made_anew(&seen)?;
            let head = head_of(&made);
            let nearly = |(seen, made): (&u8, &u8)| (*seen == 0) == (*made == 0);
            if seen[CONTRADICTED_AT..HEAD].iter().zip(&head[CONTRADICTED_AT..]).all(nearly) {
                seen[CONTRADICTED_AT..HEAD].copy_from_slice(&head[CONTRADICTED_AT..]);
            }
        }
        if self.is("session: what lies behind its file is not looked at") && seen.len() >= HEAD + HEADER {
            let file = &seen[HEAD..];
            seen.truncate(HEAD + HEADER + FIRST * usize::from(file[5]) + RECORD * number_at(&file[6..]));
        }
        if self.is("session: no core may be missing") && desk::taken(&seen)?.trace.skips_a_thread() {
            return None;
        }
        if self.is("session: any table") {
            let made = made_anew(&seen)?;
            seen[CONTRADICTED_AT..HEAD].copy_from_slice(&head_of(&made)[CONTRADICTED_AT..]);
        }
        if self.is("session: pairs in order only") {
            let standing = usize::from(seen[1]).min(MOST_PAIRS);
            let pairs: Vec<_> = seen[PAIRS_AT..].chunks(4).take(standing).map(|pair| (number_at(pair), number_at(&pair[2..]))).collect();
            if pairs.windows(2).any(|two| two[0] > two[1]) {
                return None;
            }
        }
        Some(seen)
    }
}

/// The session that some bytes' model, pairs and file make, whatever their table says.
fn made_anew(bytes: &[u8]) -> Option<Session> {
    let mut wiped = bytes.to_vec();
    wiped[CONTRADICTED_AT..HEAD].fill(0);
    let parts = desk::taken(&wiped)?;
    let fresh = session::open(&parts.trace, parts.model).ok()?;
    parts.pairs.iter().try_fold(fresh, |session, &(x, y)| session::suppose(&session, x, y).ok())
}

impl Desk for Faulty {
    fn report(&self, text: &[u8], out: &mut [u8]) -> usize {
        let (page, room) = (self.page(text), out.len());
        let length = page.report(out);
        if self.is("report: a letter too far") && length < room {
            out[length] = 0;
        }
        if self.is("report: short memory written") && length == 0 {
            out.copy_from_slice(&page.output().as_bytes()[..room]);
        }
        let first_line = out.iter().take(length).position(|&byte| byte == b'\n').map_or(0, |place| place + 1);
        if self.is("report: length of one line") {
            first_line
        } else {
            length
        }
    }

    fn number(&self, text: &[u8]) -> u8 {
        let page = self.page(text);
        let line = &text[page.start()..page.end()];
        match page.number() {
            8 if self.is("number: 8 told as 7") => 7,
            4 if self.is("number: any number past a bound is 3") => 3,
            17 if self.is("number: 17 told as 8") => 8,
            4 if self.is("number: 17 before 4") && line.starts_with(b"init") && init_lines(text) + 1 < page.line() => 17,
            22 if self.is("number: any threads") => DONE,
            17 if self.is("number: an init of 0 is none") && line.ends_with(b" 0") => DONE,
            number => number,
        }
    }

    fn line(&self, text: &[u8]) -> usize {
        let page = self.page(text);
        let line = page.line();
        if self.is("line: counted from 0") {
            line.saturating_sub(1)
        } else if self.is("line: a missing core is the last line's") && page.number() == 22 {
            text.split(|&byte| byte == b'\n').count() - 1
        } else if self.is("line: init lines are not counted") {
            line.saturating_sub(init_lines(text))
        } else {
            line
        }
    }

    fn start(&self, text: &[u8]) -> usize {
        let page = self.page(text);
        let empty_line = self.is("start: an empty line has none") && page.start() == page.end();
        if empty_line || self.is("start: the text's own") {
            0
        } else {
            page.start()
        }
    }

    fn end(&self, text: &[u8]) -> usize {
        let end = self.page(text).end();
        if self.is("end: with the feed") && end > 0 && text.get(end) == Some(&b'\n') {
            end + 1
        } else {
            end
        }
    }

    fn verdict(&self, text: &[u8], model: u8, out: &mut [u8]) -> u8 {
        let (mut page, before) = (self.page(text), out.to_vec());
        let no_model = Model::numbered(model.into()).is_none();
        let short = out.len() < VERDICT;
        let records = text.split_inclusive(|&byte| byte == b'\n').skip(init_lines(text)).collect::<Vec<_>>().concat();
        if self.is("verdict: memory starts at 0") && page.number() == DONE && self.page(&records).number() == DONE {
            page = self.page(&records);
        }
        if short && (self.is("verdict: room before the text") || self.is("verdict: room before the model") && page.number() == DONE) {
            return NO_ROOM;
        }
        if self.is("verdict: one byte less is enough") && out.len() == VERDICT - 1 {
            return page.verdict(model, &mut [0; VERDICT]).unwrap_or(NONE_LEFT);
        }
        let any_model = if self.is("verdict: any model is SC") && no_model { 1 } else { model };
        // What is not known here is not known there: the comparison then takes either answer.
        let Some(answer) = page.verdict(any_model, out) else {
            out[..VERDICT].fill(0);
            return NONE_LEFT;
        };
        if answer < ORDER && answer != NO_SOURCE {
            if self.is("verdict: refused, and memory wiped") && !short {
                out[..VERDICT].fill(0);
            }
            return if answer < 9 && self.is("verdict: the model first") && no_model { 9 } else { answer };
        }
        if self.is("verdict: what lies behind is wiped") {
            out[VERDICT..].fill(0);
        }
        if self.is("verdict: unused places stay") && answer == ORDER {
            let named = OPERATIONS_AT + 2 * number_at(out);
            out[named..VERDICT].copy_from_slice(&before[named..VERDICT]);
        }
        if self.is("verdict: no rules") {
            out[RULES_AT..VERDICT].fill(0);
        }
        if self.is("verdict: high byte first") {
            out[OPERATIONS_AT..RULES_AT].chunks_mut(2).for_each(|number| number.reverse());
        }
        if self.is("verdict: some other order") && answer == ORDER {
            let (Some(trace), Some(kind)) = (page.trace(), Model::numbered(model.into())) else { return answer };
            let last = last_order(trace.operations(), |list| second::orders::judge(trace, kind, list));
            last.iter().enumerate().for_each(|(place, &x)| put_number(&mut out[OPERATIONS_AT + 2 * place..], x));
        }
        match answer {
            NONE_LEFT if self.is("verdict: every trace has an order") => ORDER,
            answer => answer,
        }
    }

    fn limited(&self, text: &[u8], model: u8, limit: u64, out: &mut [u8]) -> u8 {
        let page = self.page(text);
        if self.is("limited: room for a verdict is enough") && (VERDICT..LIMITED).contains(&out.len()) {
            return page.limited(model, limit, &mut [0; LIMITED]).unwrap_or(UNDECIDED);
        }
        let less = if self.is("limited: one step less") { limit.saturating_sub(1) } else { limit };
        // What is not known here is not asked there.
        let Some(answer) = page.limited(model, less, out) else { return UNDECIDED };
        if answer != NO_SOURCE && answer < ORDER {
            return answer;
        }
        let steps = u64::from_le_bytes(out[VERDICT..LIMITED].try_into().expect("eight bytes"));
        let steps = match answer {
            UNDECIDED if self.is("limited: undecided with count 0") => 0,
            UNDECIDED => limit,
            CIRCLE if self.is("limited: a circle costs a step") => 1,
            ORDER if self.is("limited: one step more is counted") => steps + 1,
            _ => steps,
        };
        out[VERDICT..LIMITED].copy_from_slice(&steps.to_le_bytes());
        if self.is("limited: the high byte first") {
            out[VERDICT..LIMITED].reverse();
        }
        if self.is("limited: undecided names something") && answer == UNDECIDED {
            put_number(out, 1);
        }
        answer
    }

    fn judge(&self, text: &[u8], model: u8, list: &[u16], out: &mut [u8]) -> u8 {
        let page = self.page(text);
        let mut seen = list.to_vec();
        if self.is("judge: repeats") {
            seen.clear();
            list.iter().for_each(|x| {
                if !seen.contains(x) {
                    seen.push(*x)
                }
            });
        }
        if self.is("judge: low bytes of numbers") {
            seen.iter_mut().for_each(|x| *x &= 255);
        }
        let no_model = Model::numbered(model.into()).is_none();
        let model = if self.is("judge: no model") && no_model { 2 } else { model };
        if self.is("judge: room first") && out.len() < JUDGEMENT {
            return NO_ROOM;
        }
        let answer = page.judgement(model, &seen, out);
        if answer < VALID {
            return answer;
        }
        if self.is("judge: what lies behind is wiped") {
            out[JUDGEMENT..].fill(0);
        }
        if self.is("judge: the pair turned round") {
            out[..JUDGEMENT].rotate_left(2);
        }
        if self.is("judge: places from 1") && answer == BAD_NUMBER {
            out[0] = out[0].wrapping_add(1);
        }
        if self.is("judge: the first repeat") && answer == REPEAT {
            let first = (0..list.len()).find(|&i| list[..i].contains(&list[i])).expect("one stands there twice");
            put_number(out, list[first].into());
        }
        if self.is("judge: the first wrong value") && answer == WRONG_VALUE {
            let trace = page.trace().expect("a good text");
            let wrong = |x: &&u16| trace.places[usize::from(**x)].read().is_some() && **x >= number_at(out) as u16;
            put_number(out, usize::from(*list.iter().find(wrong).expect("one is wrong")));
        }
        match answer {
            BAD_NUMBER if self.is("judge: a bad number is a wrong length") => WRONG_LENGTH,
            _ if self.is("judge: yes to all") => VALID,
            answer => answer,
        }
    }

    fn run(&self, text: &[u8], model: u8, steps: &[u8], out: &mut [u8]) -> u8 {
        let page = self.page(text);
        if self.is("run: room first") && out.len() < PLACE {
            return NO_ROOM;
        }
        let model = if self.is("run: PSO has a machine") && model == 3 { 2 } else { model };
        let model = if self.is("run: buffers are passed by") && model == 2 { 1 } else { model };
        let answer = page.run(model, steps, out);
        if answer == STUCK && self.is("run: places from 1") {
            let place = number_at(out) + 1;
            put_number(out, place);
        }
        if answer == STUCK && self.is("run: the last place") {
            put_number(out, steps.len() - 1);
        }
        if answer >= STUCK && self.is("run: what lies behind is wiped") {
            out[PLACE..].fill(0);
        }
        match answer {
            NOT_THROUGH if self.is("run: done is through") => THROUGH,
            THROUGH if self.is("run: through is done") => NOT_THROUGH,
            answer => answer,
        }
    }

    fn steps(&self, text: &[u8], model: u8, order: &[u16], out: &mut [u8]) -> u8 {
        let (page, before) = (self.page(text), out.to_vec());
        let model = if self.is("steps: PSO has a machine") && model == 3 { 2 } else { model };
        let answer = page.steps(model, order, out);
        if answer < REPLAYED {
            return answer;
        }
        let trace = page.trace().expect("a good text");
        let count = number_at(out);
        if self.is("steps: no fences at the end") && answer == REPLAYED && count > 0 && trace.places[trace.count - 1].is_fence() {
            out[STEPS_AT + count - 1] = 0;
            put_number(out, count - 1);
        }
        if self.is("steps: unused places stay") {
            out[STEPS_AT + count..REPLAY].copy_from_slice(&before[STEPS_AT + count..REPLAY]);
        }
        match answer {
            NO_ORDER if self.is("steps: of any list") => REPLAYED,
            answer => answer,
        }
    }

    fn smaller(&self, text: &[u8], model: u8, out: &mut [u8]) -> u8 {
        let page = self.page(text);
        let answer = page.smaller(model, out).unwrap_or(DONE);
        if self.is("smaller: one byte less is enough") && answer == NO_ROOM {
            let told = page.smaller(model, &mut vec![0; out.len() + 1]);
            return told.unwrap_or(DONE);
        }
        let (Some(trace), Some(model), CUT) = (page.trace(), Model::numbered(model.into()), answer) else { return answer };
        let end = LEFT + number_at(&out[2..]);
        match self.0 {
            "smaller: what lies behind is wiped" => out[end..].fill(0),
            "smaller: new numbers for old" => (0..number_at(out)).for_each(|new| put_number(&mut out[OLDS_AT + 2 * new..], new)),
            "smaller: memory starts at 0" => {
                let lines = out[LEFT..end].split_inclusive(|&byte| byte == b'\n').filter(|line| !line.starts_with(b"init"));
                let records = lines.collect::<Vec<_>>().concat();
                out[LEFT..][..records.len()].copy_from_slice(&records);
                put_number(&mut out[2..], records.len());
            }
            _ => {
                let Some(part) = cut_otherwise(self.0, trace, model) else { return answer };
                lay_left(out, part.records.len(), &part.olds(), &text_of(&part.trace()));
            }
        }
        answer
    }

    fn accepts(&self, text: &[u8], model: u8, list: &[u16]) -> u8 {
        let page = self.page(text);
        let there = Model::numbered(model.into()).is_some();
        let model = match there {
            true if self.is("accepts: any model is SC") => 1,
            false if self.is("accepts: no model") => 2,
            _ => model,
        };
        let answer = page.accepts(model, list);
        let front = self.is("accepts: numbers left over") && (0..list.len()).any(|end| page.accepts(model, &list[..end]) == ACCEPTED);
        if answer == NOT_ACCEPTED && (front || self.is("accepts: every list")) {
            return ACCEPTED;
        }
        answer
    }

    fn paper(&self, text: &[u8], model: u8, out: &mut [u16]) -> u8 {
        let model = if self.is("paper: no model") && Model::numbered(model.into()).is_none() { 1 } else { model };
        let (answer, list) = paper_of(&self.page(text), text, model);
        if answer != SHOWN {
            return answer;
        }
        if out.len() < LIST_AT + list.len() {
            let short = out.len() + 1 == LIST_AT + list.len();
            return match self.0 {
                "paper: one number less is enough" if short => desk::lay_paper(&list[..list.len() - 1], out),
                "paper: written before it is counted" => {
                    out.iter_mut().take(1).for_each(|number| *number = number.wrapping_add(1));
                    NO_ROOM
                }
                _ => NO_ROOM,
            };
        }
        let other = match self.0 {
            "paper: nothing to show" => return NOTHING_TO_SHOW,
            "paper: what lies behind is wiped" => {
                out[LIST_AT + list.len()..].fill(0);
                list
            }
            "paper: the circle left out" => entries_of(&list).split_last().expect("a circle").1.concat(),
            // of a list that begins with a split the first edge is no other's
            "paper: an edge twice" if list[0] != 8 => [&list[..4], &one_on(&list)].concat(),
            "paper: a split that is not needed" => [vec![8, list[1], list[2], 0], one_on(&list), one_on(&list)].concat(),
            _ => list,
        };
        desk::lay_paper(&other, out)
    }

    fn open(&self, text: &[u8], model: u8, session: &mut [u8]) -> u8 {
        let (page, before) = (self.page(text), session.to_vec());
        let needed = HEAD + page.trace().map_or(HEADER, |trace| file_of(trace).len());
        if self.is("open: one byte less is enough") && session.len() + 1 == needed {
            let mut wide = vec![0; needed];
            return page.open(model, &mut wide).0;
        }
        if self.is("open: room before the text") && session.len() < needed {
            return NO_ROOM;
        }
        let answer = page.open(model, session).0;
        if self.is("open: refused, and too short is written") && answer != NO_ROOM && session.len() < HEAD {
            session.fill(0);
        }
        if self.is("open: refused, and memory stays") && answer != DONE {
            session.copy_from_slice(&before);
        }
        if self.is("open: what lies behind is wiped") && answer == DONE {
            session[needed..].fill(0);
        }
        match answer {
            DONE if self.is("open: a missing source refused") && desk::waiting(&session[..needed], &mut [0; PLACE]) == WAITS => 11,
            DONE if self.is("open: a circle refused") && session[CONTRADICTED_AT] == 1 => 11,
            answer => answer,
        }
    }

    fn suppose(&self, session: &mut [u8], x: usize, y: usize) -> u8 {
        let Some(mut seen) = self.seen(session) else { return 12 };
        let (x, y) = if self.is("suppose: low bytes of numbers") { (x & 255, y & 255) } else { (x, y) };
        let answer = desk::suppose(&mut seen, x, y);
        if answer == 13 && self.is("suppose: equal before a fence") && x == y {
            return 14;
        }
        if answer == 15 && self.is("suppose: a seventeenth pair") {
            return DONE;
        }
        if answer != DONE {
            return answer;
        }
        if self.is("suppose: refused while contradicted") && session[CONTRADICTED_AT] == 1 {
            return 14;
        }
        let (byte, bit) = place_of((x, y));
        let held = session[byte] & bit != 0;
        if self.is("suppose: a held pair left out") && held {
            return DONE;
        }
        if self.is("suppose: the table left alone") {
            seen[CONTRADICTED_AT..HEAD].copy_from_slice(&session[CONTRADICTED_AT..HEAD]);
        }
        if self.is("suppose: its own edge only") && seen[CONTRADICTED_AT] == 0 {
            seen[CONTRADICTED_AT..HEAD].copy_from_slice(&session[CONTRADICTED_AT..HEAD]);
            seen[byte] |= bit;
        }
        session[..HEAD].copy_from_slice(&seen[..HEAD]);
        answer
    }

    fn take_back(&self, session: &mut [u8]) -> u8 {
        let Some(mut seen) = self.seen(session) else { return 12 };
        let answer = desk::take_back(&mut seen);
        while answer == DONE && self.is("take back: all pairs") && desk::take_back(&mut seen) == DONE {}
        if answer == DONE && !self.is("take back: ignored") {
            session[..HEAD].copy_from_slice(&seen[..HEAD]);
        }
        answer
    }

    fn ask(&self, session: &[u8], x: usize, y: usize) -> u8 {
        let Some(seen) = self.seen(session) else { return 12 };
        match if self.is("ask: backwards") { desk::ask(&seen, y, x) } else { desk::ask(&seen, x, y) } {
            CONTRADICTED if self.is("ask: contradicted holds nothing") => NOT_HELD,
            answer => answer,
        }
    }

    fn add(&self, session: &mut [u8], fields: &Fields) -> u8 {
        let front = session.len().saturating_sub(RECORD);
        let Some(mut seen) = self.seen(&session[..front]) else { return 12 };
        let given = desk::taken(&seen);
        seen.extend(&session[front..]);
        let mut fields = *fields;
        if self.is("add: any kind past 3 is a fence") && fields.kind > 3 {
            fields = Fields { kind: 3, address: 0, read: 0, written: 0, ..fields };
        }
        if self.is("add: unused numbers are not looked at") {
            fields.read *= u16::from(fields.kind != 1);
            fields.written *= u16::from(fields.kind != 0);
        }
        let before = seen.clone();
        let answer = desk::add(&mut seen, &fields);
        if self.is("add: numbers before 12") && answer == 12 && fields.record().is_none() {
            return NO_ENTRY;
        }
        if answer != DONE && self.is("add: refused, and memory wiped") && answer != 12 {
            session[front..].fill(0);
        }
        if answer != DONE {
            return answer;
        }
        let given = given.expect("a session");
        let record = fields.record().expect("a record");
        let named = |other: &Record| other.address() == record.address() && other.read().is_some() && other.read() == record.written();
        if self.is("add: 8 by what was read") && record.written().is_some() && given.trace.records().iter().any(named) {
            return 8;
        }
        let waits = desk::waiting(&seen, &mut [0; PLACE]) == WAITS;
        if self.is("add: a missing source refused") && waits && desk::waiting(&before[..front], &mut [0; PLACE]) == DONE {
            return 11;
        }
        if self.is("add: the table left alone") {
            seen[CONTRADICTED_AT..HEAD].copy_from_slice(&before[CONTRADICTED_AT..HEAD]);
        }
        if self.is("add: a source settles nothing that waited") && desk::waiting(&before[..front], &mut [0; PLACE]) == WAITS && !waits {
            seen[CONTRADICTED_AT..HEAD].copy_from_slice(&before[CONTRADICTED_AT..HEAD]);
        }
        while self.is("add: pairs dropped") && desk::take_back(&mut seen) == DONE {}
        session[..seen.len()].copy_from_slice(&seen);
        answer
    }

    fn waiting(&self, session: &[u8], out: &mut [u8]) -> u8 {
        let Some(seen) = self.seen(session) else { return 12 };
        let answer = desk::waiting(&seen, out);
        if self.is("waiting: the last one") && answer == WAITS {
            let trace = desk::taken(&seen).expect("a session").trace;
            let lacks = |&x: &usize| trace.places[x].read().is_some() && !trace.reads_first(x) && trace.source(x).is_none();
            put_number(out, (0..trace.count).rev().find(lacks).expect("one waits"));
        }
        if self.is("waiting: short memory written") && answer == NO_ROOM {
            out.fill(0);
        }
        answer
    }

    fn pack(&self, text: &[u8], out: &mut [u8]) -> u8 {
        let page = self.page(text);
        let needed = BYTES_AT + page.trace().map_or(HEADER, |trace| file_of(trace).len());
        if self.is("pack: one byte less is enough") && out.len() + 1 == needed {
            return page.number();
        }
        if self.is("pack: room before the text") && out.len() < needed {
            return NO_ROOM;
        }
        let answer = packs::pack(&page, out);
        if answer == DONE && self.is("pack: what lies behind is wiped") {
            out[needed..].fill(0);
        }
        if answer == DONE && self.is("pack: the count's high byte first") {
            out[..BYTES_AT].reverse();
        }
        answer
    }

    fn unpack(&self, file: &[u8], out: &mut [u8]) -> u8 {
        let answer = packs::unpack(file, out);
        if answer == DONE && self.is("unpack: the file's length") {
            put_number(out, file.len());
        }
        if answer != DONE && self.is("unpack: refused, and memory wiped") {
            out.fill(0);
        }
        answer
    }

    fn open_file(&self, file: &[u8], model: u8, session: &mut [u8]) -> u8 {
        let before = session.to_vec();
        if self.is("open file: a lost core taken") && packs::number(file) == 22 {
            return desk::open_on(read_entries(file).as_ref().map_err(|refusal| refusal.number), model, session).0;
        }
        if self.is("open file: one byte less is enough") {
            let mut wide = [&before[..], &[0]].concat();
            let answer = packs::open(file, model, &mut wide);
            session.copy_from_slice(&wide[..before.len()]);
            return answer;
        }
        if self.is("open file: the model first") && Model::numbered(model.into()).is_none() {
            packs::open(file, model, session);
            return 9;
        }
        let answer = packs::open(file, model, session);
        if self.is("open file: refused, and memory stays") && answer != DONE {
            session.copy_from_slice(&before);
        }
        answer
    }

    fn file_number(&self, file: &[u8]) -> u8 {
        let swapped = file.len() >= HEADER && file.len() != HEADER + FIRST * usize::from(file[5]) + RECORD * number_at(&file[6..]);
        let past = |entry: &[u8]| entry[1] > 7 || entry[2] > 15;
        match packs::number(file) {
            22 if self.is("file: any threads") => DONE,
            19 if self.is("file: the length before the version") && swapped => 18,
            20 if self.is("file: 4 before 20") && packs::line(file) > 0 => {
                let records = &file[HEADER + FIRST * usize::from(file[5])..];
                if past(&records[RECORD * (packs::line(file) - 1)..][..RECORD]) {
                    4
                } else {
                    20
                }
            }
            number => number,
        }
    }

    fn file_line(&self, file: &[u8]) -> usize {
        let line = packs::line(file);
        if self.is("file: the line is the record") {
            line.saturating_sub(1)
        } else {
            line
        }
    }

    fn words(&self, text: &[u8]) -> usize {
        match self.page(text).trace() {
            Some(_) if self.is("words: one for every thread") => 8,
            Some(trace) => layout(trace).len(),
            None => 0,
        }
    }

    fn loads(&self, text: &[u8]) -> usize {
        match self.page(text).trace() {
            Some(trace) if self.is("loads: stores too") => trace.operations().len(),
            Some(trace) => loads(trace).len(),
            None => 0,
        }
    }

    fn signature(&self, text: &[u8], words: &mut [u64]) -> usize {
        let page = self.page(text);
        let Some(trace) = page.trace() else { return page.number().into() };
        let before = words.to_vec();
        let answer = pack_into(trace, words);
        if self.is("signature: written before it is checked") && answer % 256 == 23 {
            words.fill(0);
        }
        if self.is("signature: 23 before 26") && answer == 26 {
            let mut right = vec![0; layout(trace).len()];
            let other = pack_into(trace, &mut right);
            return if other == 0 { answer } else { other };
        }
        if answer != 0 {
            return answer;
        }
        // the digits once more, wrongly
        let read = |load: usize| trace.places[load].read().expect("a load reads");
        let place = |load: usize| list(trace, load).iter().position(|&value| value == read(load)).expect("listed") as u128;
        let range = |load: usize| list(trace, load).len() as u128;
        for (of, word) in layout(trace).iter().zip(words.iter_mut()) {
            if self.is("signature: last load least") {
                *word = of.iter().fold(0u128, |word, &load| word * range(load) + place(load)) as u64;
            }
            if self.is("signature: first value last") {
                let turned = |load: usize| (place(load) + range(load) - 1) % range(load);
                *word = of.iter().rev().fold(0u128, |word, &load| word * range(load) + turned(load)) as u64;
            }
            if self.is("signature: own writes listed") && of.iter().any(|&load| trace.places[load].written().is_some()) {
                *word = word.wrapping_add(1);
            }
        }
        if self.is("signature: threads in one word") && words.len() > 1 {
            words.copy_from_slice(&before);
            words[0] = 0;
        }
        answer
    }

    fn night(&self, text: &[u8], model: u8, words: &[u64], out: &mut [u16]) -> usize {
        let page = self.page(text);
        let Some(trace) = page.trace() else { return page.number().into() };
        let there = Model::numbered(model.into()).is_some();
        let model = match there {
            true if self.is("night: any model is SC") => 1,
            false if self.is("night: no model") => 2,
            _ => model,
        };
        let answer = night_into(trace, model, words, out, STEPS).unwrap_or(0);
        if self.is("night: run and word exchanged") && answer % 256 == 24 {
            return nights::code(24, answer / 256 % 256, answer / 65536);
        }
        if self.is("night: written before it is checked") && answer % 256 == 24 {
            out.fill(0);
        }
        if self.is("night: no rules") && answer == 0 {
            out.chunks_mut(BLOCK).for_each(|block| block[nights::RULES_AT..].fill(0));
        }
        if self.is("night: the program's own reads") && answer == 0 {
            let mut own = [0; VERDICT];
            let Some(kind) = page.verdict(model, &mut own) else { return answer };
            for block in out.chunks_mut(BLOCK) {
                block[0] = kind.into();
                block[1] = number_at(&own) as u16;
            }
        }
        answer
    }

    fn reads(&self, text: &[u8], words: &[u64], reads: &mut [u16]) -> usize {
        let page = self.page(text);
        let Some(trace) = page.trace() else { return page.number().into() };
        let answer = unpack_into(trace, words, reads);
        if self.is("reads: the largest word refused") && answer == 0 {
            let top = |of: &Vec<usize>| of.iter().map(|&load| list(trace, load).len() as u128).product::<u128>() - 1;
            if let Some(place) = layout(trace).iter().zip(words).position(|(of, &word)| top(of) > 0 && u128::from(word) == top(of)) {
                return 24 + 256 * place;
            }
        }
        if self.is("reads: too large a word taken") && answer % 256 == 24 {
            return 0;
        }
        if self.is("reads: reads by thread") && answer == 0 {
            let numbers = loads(trace);
            let mut sorted: Vec<usize> = (0..numbers.len()).collect();
            sorted.sort_by_key(|&k| trace.places[numbers[k]].thread());
            let right = reads.to_vec();
            sorted.iter().enumerate().for_each(|(to, &from)| reads[to] = right[from]);
        }
        answer
    }
}

/// What is answered to who asks for a paper, and the list; kept, since every desk is asked about the same texts.
fn paper_of(page: &Page<'_>, text: &[u8], model: u8) -> (u8, Vec<u16>) {
    static KEPT: Mutex<BTreeMap<(Vec<u8>, u8), (u8, Vec<u16>)>> = Mutex::new(BTreeMap::new());
    if let Some(found) = KEPT.lock().unwrap().get(&(text.to_vec(), model)) {
        return found.clone();
    }
    let mut lent = vec![0; 1 << 16];
    let answer = page.paper(model, &mut lent).unwrap_or(NO_ROOM);
    let found = (answer, lent[LIST_AT..][..usize::from(lent[0])].to_vec());
    KEPT.lock().unwrap().insert((text.to_vec(), model), found.clone());
    found
}

/// The numbers of each entry of a paper.
fn entries_of(list: &[u16]) -> Vec<Vec<u16>> {
    let mut entries = Vec::new();
    let mut left = list;
    while !left.is_empty() {
        let (entry, rest) = left.split_at(4 + usize::from(left[3]));
        entries.push(entry.to_vec());
        left = rest;
    }
    entries
}

/// A paper that goes on behind one entry more.
fn one_on(list: &[u16]) -> Vec<u16> {
    let mut entries = entries_of(list);
    entries.iter_mut().for_each(|entry| entry[4..].iter_mut().for_each(|number| *number += 1));
    entries.concat()
}

/// A trace cut down by a wrong reading of request 9; None for a fault that is none of these.
fn cut_otherwise(fault: &str, trace: &Trace, model: Model) -> Option<Part> {
    let mut part = Part::whole(trace);
    loop {
        let mut places: Vec<usize> = (0..part.records.len()).collect();
        let left = |place: usize| -> Part {
            let readers = |part: &Part| {
                let before = part.trace();
                let kept = |load: &usize| *load != place && before.source(*load) != Some(place);
                let records = (0..part.records.len()).filter(kept).map(|load| part.records[load]).collect();
                Part { firsts: part.firsts, records }
            };
            let alone = |part: &Part| {
                let mut left = part.clone();
                left.records.remove(place);
                left
            };
            match fault {
                "smaller: one step deep" => readers(&part),
                "smaller: a swap's readers stay" if part.records[place].1.read().is_some() => alone(&part),
                _ => without(&part, place),
            }
        };
        match fault {
            "smaller: the highest record first" => places.reverse(),
            "smaller: fences stay" => places.retain(|&place| !part.records[place].1.is_fence()),
            "smaller: one step deep" | "smaller: a swap's readers stay" => (),
            _ => return None,
        }
        match places.into_iter().map(left).find(|left| faulty(left, model, STEPS) == Some(true)) {
            Some(left) => part = left,
            None => return Some(part),
        }
    }
}

/// How many lines there are before the first that is no init line.
fn init_lines(text: &[u8]) -> usize {
    text.split(|&byte| byte == b'\n').take_while(|line| line.starts_with(b"init")).count()
}

/// The last valid order in dictionary order of a few operations; of many the one with two neighbours changed, if that is valid.
fn last_order(operations: Vec<usize>, valid: impl Fn(&[usize]) -> bool) -> Vec<usize> {
    let mut found = operations.clone();
    let mut list = operations;
    for _ in 0..5_000 {
        if valid(&list) {
            found = list.clone();
        }
        if !second::orders::next_permutation(&mut list) {
            break;
        }
    }
    found
}

/// The first difference among so many cases of each family.
fn first_difference(desk: &Faulty, cases: u64) -> Option<String> {
    let all = (0..cases).flat_map(|case| FAMILIES.iter().map(move |family| (family, case)));
    all.filter(|(family, case)| !family.seldom || case % 40 == 0).find_map(|(family, case)| {
        let (counts, differences) = compared(desk, family, 1, case, STEPS);
        assert_eq!(counts.failed() > 0, !differences.is_empty(), "what differs is both told and counted");
        differences.into_iter().next()
    })
}

#[test]
fn the_right_answers_pass() {
    assert_eq!(first_difference(&Faulty(RIGHT), 60), None);
}

#[test]
fn every_fault_is_found() {
    // every processor takes the next fault that nobody has looked at
    let next = AtomicUsize::new(0);
    let missed = Mutex::new(Vec::new());
    let search = || {
        while let Some(fault) = FAULTS.get(next.fetch_add(1, Ordering::Relaxed)) {
            if first_difference(&Faulty(fault), 400).is_none() {
                missed.lock().expect("no search panics").push(*fault);
            }
        }
    };
    thread::scope(|scope| {
        for _ in 0..thread::available_parallelism().map_or(1, usize::from) {
            scope.spawn(search);
        }
    });
    let missed = missed.into_inner().expect("no search panics");
    assert!(missed.is_empty(), "not found: {missed:?}");
}

/// The text, the call, both answers and the calls before it.
#[test]
fn a_difference_is_told_with_its_text_and_calls() {
    let told = first_difference(&Faulty("take back: ignored"), 400).expect("found");
    for word in [
        "DIFFERENCE: family",
        "take_back: wanted 0, got 0\n",
        "bytes differ from those wanted, at 1: ",
        "calls so far:\n",
        "    open under",
        "    suppose ",
        "text (",
    ] {
        assert!(told.contains(word), "no {word:?} in\n{told}");
    }
    let told = first_difference(&Faulty("number: 8 told as 7"), 400).expect("found");
    assert!(told.contains("number: wanted 8, got 7\ncalls so far:\ntext ("), "{told}");
}

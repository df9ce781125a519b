//! The entries under test, whoever they belong to: the proved library, or in this package's tests a wrong one.

use second::desk::Fields;
use wheelotter::entries;

pub trait Desk: Sync {
    fn report(&self, text: &[u8], out: &mut [u8]) -> usize;
    fn number(&self, text: &[u8]) -> u8;
    fn line(&self, text: &[u8]) -> usize;
    fn start(&self, text: &[u8]) -> usize;
    fn end(&self, text: &[u8]) -> usize;
    fn verdict(&self, text: &[u8], model: u8, out: &mut [u8]) -> u8;
    fn limited(&self, text: &[u8], model: u8, limit: u64, out: &mut [u8]) -> u8;
    fn judge(&self, text: &[u8], model: u8, list: &[u16], out: &mut [u8]) -> u8;
    fn run(&self, text: &[u8], model: u8, steps: &[u8], out: &mut [u8]) -> u8;
    fn steps(&self, text: &[u8], model: u8, order: &[u16], out: &mut [u8]) -> u8;
    fn smaller(&self, text: &[u8], model: u8, out: &mut [u8]) -> u8;
    fn accepts(&self, text: &[u8], model: u8, list: &[u16]) -> u8;
    fn paper(&self, text: &[u8], model: u8, out: &mut [u16]) -> u8;
    fn open(&self, text: &[u8], model: u8, session: &mut [u8]) -> u8;
    fn open_file(&self, file: &[u8], model: u8, session: &mut [u8]) -> u8;
    fn suppose(&self, session: &mut [u8], x: usize, y: usize) -> u8;
    fn take_back(&self, session: &mut [u8]) -> u8;
    fn ask(&self, session: &[u8], x: usize, y: usize) -> u8;
    fn add(&self, session: &mut [u8], fields: &Fields) -> u8;
    fn waiting(&self, session: &[u8], out: &mut [u8]) -> u8;
    fn pack(&self, text: &[u8], out: &mut [u8]) -> u8;
    fn unpack(&self, file: &[u8], out: &mut [u8]) -> u8;
    fn file_number(&self, file: &[u8]) -> u8;
    fn file_line(&self, file: &[u8]) -> usize;
    fn words(&self, text: &[u8]) -> usize;
    fn loads(&self, text: &[u8]) -> usize;
    fn signature(&self, text: &[u8], words: &mut [u64]) -> usize;
    fn reads(&self, text: &[u8], words: &[u64], reads: &mut [u16]) -> usize;
    fn night(&self, text: &[u8], model: u8, words: &[u64], out: &mut [u16]) -> usize;
}

/// The proved library's.
pub struct Proved;

impl Desk for Proved {
    fn report(&self, text: &[u8], out: &mut [u8]) -> usize {
        entries::report(text, out)
    }
    fn number(&self, text: &[u8]) -> u8 {
        entries::number(text)
    }
    fn line(&self, text: &[u8]) -> usize {
        entries::line(text)
    }
    fn start(&self, text: &[u8]) -> usize {
        entries::start(text)
    }
    fn end(&self, text: &[u8]) -> usize {
        entries::end(text)
    }
    fn verdict(&self, text: &[u8], model: u8, out: &mut [u8]) -> u8 {
        entries::verdict(text, model, out)
    }
    fn limited(&self, text: &[u8], model: u8, limit: u64, out: &mut [u8]) -> u8 {
        entries::limited(text, model, limit, out)
    }
    fn judge(&self, text: &[u8], model: u8, list: &[u16], out: &mut [u8]) -> u8 {
        entries::judge(text, model, list, out)
    }
    fn run(&self, text: &[u8], model: u8, steps: &[u8], out: &mut [u8]) -> u8 {
        entries::run(text, model, steps, out)
    }
    fn steps(&self, text: &[u8], model: u8, order: &[u16], out: &mut [u8]) -> u8 {
        entries::steps(text, model, order, out)
    }
    fn smaller(&self, text: &[u8], model: u8, out: &mut [u8]) -> u8 {
        entries::smaller(text, model, out)
    }
    fn accepts(&self, text: &[u8], model: u8, list: &[u16]) -> u8 {
        entries::accepts(text, model, list)
    }
    fn paper(&self, text: &[u8], model: u8, out: &mut [u16]) -> u8 {
        entries::paper(text, model, out)
    }
    fn open(&self, text: &[u8], model: u8, session: &mut [u8]) -> u8 {
        entries::open(text, model, session)
    }
    fn open_file(&self, file: &[u8], model: u8, session: &mut [u8]) -> u8 {
        entries::open_file(file, model, session)
    }
    fn suppose(&self, session: &mut [u8], x: usize, y: usize) -> u8 {
        entries::suppose(session, x, y)
    }
    fn take_back(&self, session: &mut [u8]) -> u8 {
        entries::take_back(session)
    }
    fn ask(&self, session: &[u8], x: usize, y: usize) -> u8 {
        entries::ask(session, x, y)
    }
    fn add(&self, session: &mut [u8], fields: &Fields) -> u8 {
        entries::add(session, fields.kind, fields.thread, fields.address, fields.read, fields.written)
    }
    fn waiting(&self, session: &[u8], out: &mut [u8]) -> u8 {
        entries::waiting(session, out)
    }
    fn pack(&self, text: &[u8], out: &mut [u8]) -> u8 {
        entries::pack(text, out)
    }
    fn unpack(&self, file: &[u8], out: &mut [u8]) -> u8 {
        entries::unpack(file, out)
    }
    fn file_number(&self, file: &[u8]) -> u8 {
        entries::file_number(file)
    }
    fn file_line(&self, file: &[u8]) -> usize {
        entries::file_line(file)
    }
    fn words(&self, text: &[u8]) -> usize {
        entries::words(text)
    }
    fn loads(&self, text: &[u8]) -> usize {
        entries::loads(text)
    }
    fn signature(&self, text: &[u8], words: &mut [u64]) -> usize {
        entries::signature(text, words)
    }
    fn reads(&self, text: &[u8], words: &[u64], reads: &mut [u16]) -> usize {
        entries::reads(text, words, reads)
    }
    fn night(&self, text: &[u8], model: u8, words: &[u64], out: &mut [u16]) -> usize {
        entries::night(text, model, words, out)
    }
}

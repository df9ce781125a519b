//! Reads a trace from standard input. Prints the answer to it, what is wrong with it and where, the verdict in numbers under each model, whether
//! 1 2 3 0 is an order, how many steps the verdict takes within 20, what is left of it where it is faulty, what the machine does under SC and TSO, how long its
//! packed file is, whether a paper shows that there is no order, and a short talk with a session under TSO.

use std::io::{self, Read};
use wheelotter::{
    accepts, check, check_file, judge, limited, night, pack, paper, reads, report, run, signature, smaller, steps, unpack, verdict,
};
use wheelotter::{Answer, Asked, Judgement, Limited, Model, NoSignature, Paper, Ran, Record, Session, Smaller, Verdict, ENTRIES, MODELS};

fn main() -> io::Result<()> {
    let mut text = Vec::new();
    io::stdin().read_to_end(&mut text)?;
    print!("{}", report(&text));
    print_bad_line(&text);
    MODELS.iter().for_each(|&model| print_verdict(&text, model));
    [Model::Sc, Model::Tso].iter().for_each(|&model| print_machine(&text, model));
    [Model::Sc, Model::Tso].iter().for_each(|&model| print_paper(&text, model));
    print_packed(&text);
    print_signature(&text);
    print_night(&text);
    match Session::open(&text, Model::Tso) {
        Err(_) => println!("open: refused"),
        Ok(session) => {
            println!("open: done");
            talk(session);
        }
    }
    Ok(())
}

/// The bad line is a part of our own text: nothing is copied.
fn print_bad_line(text: &[u8]) {
    match check(text) {
        Ok(()) => println!("the text is good"),
        Err(refusal) => {
            let start = refusal.part.as_ptr() as usize - text.as_ptr() as usize;
            let part = String::from_utf8_lossy(refusal.part);
            let end = start + refusal.part.len();
            println!("number {} on line {}, bytes {start} to {end}: {part}", refusal.answer as u8, refusal.line);
        }
    }
}

fn listed<T: std::fmt::Display>(numbers: &[T]) -> String {
    numbers.iter().map(|number| format!(" {number}")).collect()
}

fn print_verdict(text: &[u8], model: Model) {
    let told = match verdict(text, model) {
        Ok(Verdict::Order(operations)) => format!("order{}", listed(&operations)),
        Ok(Verdict::Circle { operations, rules }) => format!("circle{} by{}", listed(&operations), listed(&rules)),
        Ok(Verdict::NoSource(load)) => format!("no source {load}"),
        Ok(Verdict::NoneLeft) => "none left".to_string(),
        Err(refusal) => format!("refused {}", refusal.answer as u8),
    };
    let judged = match judge(text, model, &[1, 2, 3, 0]) {
        Ok(Judgement::Valid) => "yes".to_string(),
        Ok(Judgement::OutOfTurn(first, second)) => format!("no, {first} comes before {second}"),
        Ok(other) => format!("no, {other:?}"),
        Err(refusal) => format!("no, {}", refusal.answer as u8),
    };
    println!("model {}: {told}; is 1 2 3 0 an order: {judged}", model as u8);
    let within = match limited(text, model, 20) {
        Ok(Limited::Decided(_, steps)) => format!("decided, steps {steps}"),
        Ok(Limited::Undecided) => "undecided after 20".to_string(),
        Err(refusal) => format!("refused {}", refusal.answer as u8),
    };
    println!("model {} within 20 steps: {within}", model as u8);
    let left = match smaller(text, model) {
        Ok(Smaller::Cut { olds, text }) => format!("left{}, {} bytes of text", listed(&olds), text.len()),
        Ok(Smaller::NoSource(load)) => format!("no source {load}"),
        Ok(Smaller::NothingWrong) => "nothing wrong".to_string(),
        Err(refusal) => format!("refused {}", refusal.answer as u8),
    };
    println!("model {} cut down: {left}", model as u8);
}

/// The steps that run 1 2 3 0 through, and how the steps 0 0 1 1 end.
fn print_machine(text: &[u8], model: Model) {
    let found = match steps(text, model, &[1, 2, 3, 0]) {
        Ok(found) => listed(&found),
        Err(refused) => format!(" none, {}", refused as u8),
    };
    let ran = match run(text, model, &[0, 0, 1, 1]) {
        Ok(Ran::Stuck(place)) => format!("stuck at {place}"),
        Ok(Ran::Through) => (Answer::Through as u8).to_string(),
        Ok(Ran::NotThrough) => (Answer::NotThrough as u8).to_string(),
        Err(refused) => (refused as u8).to_string(),
    };
    println!("model {}: steps of 1 2 3 0:{found}; 0 0 1 1: {ran}", model as u8);
}

/// Whether five entries show that there is no order: 0 before 1, 1 before 2, 2 before 3 and 3 before 0, by rules 1 and 4, is a circle.
fn print_paper(text: &[u8], model: Model) {
    let list = [1, 0, 1, 0, 4, 1, 2, 0, 1, 2, 3, 0, 4, 3, 0, 0, 0, 0, 0, 4, 0, 1, 2, 3];
    let told = match accepts(text, model, &list) {
        Ok(true) => "the paper is accepted".to_string(),
        Ok(false) => "the paper is not accepted".to_string(),
        Err(refusal) => format!("no paper, {}", refusal.answer as u8),
    };
    println!("model {}: {told}", model as u8);
    match paper(text, model, 62) {
        Ok(Paper::Shown(list)) => println!("model {}: a paper of {} numbers:{}", model as u8, list.len(), listed(&list)),
        Ok(Paper::Nothing) => println!("model {}: no paper to write, {}", model as u8, Answer::NothingToShow as u8),
        Ok(Paper::TooLong) => println!("model {}: no paper to write, {}", model as u8, Answer::NoRoom as u8),
        Err(refusal) => println!("model {}: no paper to write, {}", model as u8, refusal.answer as u8),
    }
}

/// The packed file of the text, and its text.
fn print_packed(text: &[u8]) {
    let mut file = match pack(text) {
        Ok(file) => file,
        Err(refusal) => return println!("packed: {refusal}"),
    };
    println!("packed: {} bytes of {}", file.len(), text.len());
    println!("unpacked: {} bytes", unpack(&file).map_or(0, |text| text.len()));
    match Session::open_file(&file, Model::Tso) {
        Err(_) => println!("opened from its file: refused"),
        Ok(session) => println!("opened from its file: done; ask 3 2: {}", asked(session.ask(3, 2))),
    }
    file[ENTRIES] = 4;
    if let Err(refusal) = check_file(&file) {
        println!("with another kind: number {} line {}", refusal.answer as u8, refusal.line);
    }
}

/// The words of what the loads read, and the reads that come back from them.
fn print_signature(text: &[u8]) {
    match signature(text).and_then(|words| reads(text, &words).map(|reads| (words, reads))) {
        Ok((words, reads)) => println!("signature:{}; reads:{}", listed(&words), listed(&reads)),
        Err(NoSignature::Text(answer)) => println!("signature: refused {}", answer as u8),
        Err(other) => println!("signature: {other:?}"),
    }
}

/// Three runs of the program under SC: every load saw the first value; the text's own reads; and, where it has two words, each load saw the last of its list of two.
fn print_night(text: &[u8]) {
    let Ok(own) = signature(text) else { return println!("night: none") };
    let words: Vec<u64> =
        std::iter::repeat(0).take(own.len()).chain(own.iter().copied()).chain(std::iter::repeat(1).take(own.len())).collect();
    match night(text, Model::Sc, &words, 3) {
        Ok(verdicts) => println!("night: {}", verdicts.iter().map(kind).collect::<Vec<_>>().join("; ")),
        Err(other) => println!("night: {other:?}"),
    }
}

fn kind(verdict: &Verdict) -> String {
    match verdict {
        Verdict::NoSource(x) => format!("no source {x}"),
        Verdict::Circle { operations, .. } => format!("circle{}", listed(operations)),
        Verdict::Order(operations) => format!("order{}", listed(operations)),
        Verdict::NoneLeft => "none left".into(),
    }
}

fn done(answer: Result<(), Answer>) -> &'static str {
    answer.map_or("refused", |()| "done")
}

fn asked(answer: Result<Asked, Answer>) -> &'static str {
    match answer {
        Ok(Asked::Held) => "held",
        Ok(Asked::NotHeld) => "not held",
        Ok(Asked::Contradicted) => "contradicted",
        Err(_) => "refused",
    }
}

/// Supposes 0 before 1, then 2 before 3, takes both back, and looks each time whether 3 before 2 is held. Then two records come: a load of core 0 that
/// waits, and its source.
fn talk(mut session: Session) {
    println!("ask 3 2: {}", asked(session.ask(3, 2)));
    println!("suppose 0 1: {}", done(session.suppose(0, 1)));
    println!("ask 3 2: {}", asked(session.ask(3, 2)));
    println!("suppose 2 3: {}", done(session.suppose(2, 3)));
    println!("ask 3 2: {}", asked(session.ask(3, 2)));
    println!("take back: {}", done(session.take_back()));
    println!("ask 3 2: {}", asked(session.ask(3, 2)));
    println!("take back: {}", done(session.take_back()));
    println!("ask 3 2: {}", asked(session.ask(3, 2)));
    println!("take back: {}", done(session.take_back()));
    let load = session.add(Record::Load { thread: 0, address: 2, read: 9 });
    let waits = match session.waiting() {
        Ok(Some(record)) => format!("record {record} waits"),
        Ok(None) => "none waits".to_string(),
        Err(_) => "refused".to_string(),
    };
    let store = session.add(Record::Store { thread: 1, address: 2, written: 9 });
    println!("add a load of 9: {}; {waits}; add its store: {}; ask 5 4: {}", done(load), done(store), asked(session.ask(5, 4)));
}

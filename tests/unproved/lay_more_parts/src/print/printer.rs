//! Streams that are printed as they come: texts worked out by hand, random streams beside the slow printer, sinks that
//! are handed in, and one that fails.
ghost use Rattle.std.specs.Prelude.{◌≡◌, ◌∷◌, [], pos, true, IfOk, OnOk, OnErr};
ghost use Rattle.lay_layout.specs.declared.layout.Tok.TheVariants as tok;
ghost use Rattle.lay_layout.specs.Machine.{opened, text as text_of};
ghost use Rattle.lay_io.specs.Told.{GrewBy, GrewByPrefix};
ghost use Rattle.lay_stream.specs.Fed.{Did};
ghost use Rattle.lay_printer.specs.Printers.{Blames};

use crate::print::words::{add, stream, text};
use lay_io::{Lent, MemorySink, QuietSink, Sink};
use lay_layout::{Break, Mark, Tok};
use lay_printer::{Core, Press, PrintError, Printer};
use lay_stream::{Emit, Stream, plain};
use lay_test_rows::{BETWEEN, parts};
use lay_text::{List, NoMemory, Text};
use std::alloc::Global;
use std::process::Abort;
use std::test::Fail;

/// Feeds a token. An end where no group is open is passed over.
fn feed<K: Sink>(press: &mut Press<K>, tok: &Tok) -> Result<(), PrintError> {
    match tok {
        Tok::Text(text) => press.text(text.as_bytes()),
        Tok::Break(brk) => press.brk(*brk),
        Tok::Begin { consistent, offset } => press.begin(*consistent, *offset),
        Tok::End => if press.open_groups() > 0 {
            press.end()
        } else {
            Ok(())
        },
    }
}

/// Feeds the tokens of a stream, of which each group must end, and prints the rest.
fn feed_all<K: Sink>(press: &mut Press<K>, stream: &Stream) -> Result<(), Fail> {
    for tok in stream.toks() {
        feed(press, tok)?;
    }
    if press.open_groups() > 0 {
        return Err(Fail::new("a group is open"));
    }
    press.finish()?;
    Ok(())
}

/// Prints a stream into a sink that was handed in by reference.
fn print<K: Sink>(alloc: Global, out: &mut K, stream: &Stream) -> Result<(), Fail> {
    let mut core = Core::new(alloc)?;
    feed_all(&mut Press::new(&mut core, out), stream)
}

/// The same for a printer that owns its sink, and texts that it takes.
fn feed_owner(
    alloc: Global,
    printer: &mut Printer<QuietSink>,
    tok: &Tok,
) -> Result<(), PrintError> {
    match tok {
        Tok::Text(text) => match Text::from_bytes(alloc, text.as_bytes()) {
            Ok(text) => printer.text_owned(text),
            Err(NoMemory) => Err(PrintError::NoMemory),
        },
        Tok::Break(brk) => printer.brk(*brk),
        Tok::Begin { consistent, offset } => printer.begin(*consistent, *offset),
        Tok::End => if printer.open_groups() > 0 {
            printer.end()
        } else {
            Ok(())
        },
    }
}

/// Feeds it the tokens of a stream, of which each group must end.
fn feed_owner_all(
    alloc: Global,
    printer: &mut Printer<QuietSink>,
    stream: &Stream,
) -> Result<(), Fail> {
    for tok in stream.toks() {
        feed_owner(alloc, printer, tok)?;
    }
    Ok(())
}

/// What a printer that owns its sink writes of a stream.
fn printed(alloc: Global, stream: &Stream) -> Result<QuietSink, Fail> {
    let Ok(mut printer) = Printer::new(alloc, QuietSink::with_room(alloc, 20_000)?) else {
        return Err(NoMemory.into());
    };
    feed_owner_all(alloc, &mut printer, stream)?;
    if printer.open_groups() > 0 {
        return Err(Fail::new("a group is open"));
    }
    match printer.finish() {
        Ok(sink) => Ok(sink),
        Err(fault) => Err(fault.error.into()),
    }
}

/// This text was made.
fn is_made(rt: &impl Abort, found: &[u8], wanted: &[u8]) {
    assert_eq!(rt; found, wanted);
}

/// The printer that owns its sink makes this text of a stream.
fn owner_prints(
    rt: &impl Abort,
    alloc: Global,
    stream: &Stream,
    wanted: &[u8],
) -> Result<(), Fail> {
    is_made(rt, printed(alloc, stream)?.bytes(), wanted);
    Ok(())
}

/// Each printer makes this text of a stream. What the one that is lent its sink has written is a front of it, whatever it answers.
fn prints(rt: &impl Abort, alloc: Global, stream: &Stream, wanted: &[u8]) -> Result<(), Fail> {
    owner_prints(rt, alloc, stream, wanted)?;
    let mut lent = QuietSink::with_room(alloc, 20_000)?;
    let answer = print(alloc, &mut lent, stream);
    assert!(rt; wanted.starts_with(lent.bytes()));
    answer?;
    is_made(rt, lent.bytes(), wanted);
    Ok(())
}

/// The slow printer makes this text of a stream.
fn slow_prints(
    rt: &impl Abort,
    alloc: Global,
    stream: &Stream,
    wanted: &[u8],
) -> Result<(), NoMemory>
    requires { opened stream.now 0 ≡ 0 }
{
    is_made(rt, plain(alloc, stream)?.as_bytes(), wanted);
    Ok(())
}

/// Each printer, the slow one too, makes of the stream of words the text of words.
fn lays(rt: &impl Abort, alloc: Global, row: &str) -> Result<(), Fail> {
    let (given, wanted) = parts(row);
    let wanted = text(alloc, wanted)?;
    let stream = stream(alloc, given)?;
    slow_prints(rt, alloc, &stream, wanted.as_bytes())?;
    prints(rt, alloc, &stream, wanted.as_bytes())
}

#[test]
fn rows(rt: HostRuntime) -> Result<(), Fail> {
    // An import of a list: 89 bytes fit on its line, and 90 don't.
    let lists = "t:use_a:: c:4 t:{ s:0 t:b, s:1 x:76 l:-4 t:} e: t:; h:0→t:use_a::{b,_ x:76 t:};$§\
        t:use_a:: c:4 t:{ s:0 t:b, s:1 x:77 l:-4 t:} e: t:; h:0→t:use_a::{$____b,$____ x:77 t:,$};$";
    // Such an import in nine modules: behind 36 blanks the space is 60 and not 53.
    let deep =
        "t:mod_a_ c:4 t:{ h:0 t:mod_a_ c:4 t:{ h:0 t:mod_a_ c:4 t:{ h:0 t:mod_a_ c:4 t:{ h:0 t:mod_a_ c:4 t:{ h:0 t:mod_a_ c:4 t:{ h:0 t:mod_a_ c:4 t:{ h:0 t:mod_a_ c:4 t:{ h:0 t:mod_a_ c:4 t:{ h:0 t:use_a:: c:4 t:{ s:0 t:b, s:1 x:47 l:-4 t:} e: t:; h:-4 t:} e: h:-4 t:} e: h:-4 t:} e: h:-4 t:} e: h:-4 t:} e: h:-4 t:} e: h:-4 t:} e: h:-4 t:} e: h:-4 t:} e: h:0→t:mod_a_{$ b:4 t:mod_a_{$ b:8 t:mod_a_{$ b:12 t:mod_a_{$ b:16 t:mod_a_{$ b:20 t:mod_a_{$ b:24 t:mod_a_{$ b:28 t:mod_a_{$ b:32 t:mod_a_{$ b:36 t:use_a::{b,_ x:47 t:};$ b:32 t:}$ b:28 t:}$ b:24 t:}$ b:20 t:}$ b:16 t:}$ b:12 t:}$ b:8 t:}$ b:4 t:}$ t:}$§\
        t:mod_a_ c:4 t:{ h:0 t:mod_a_ c:4 t:{ h:0 t:mod_a_ c:4 t:{ h:0 t:mod_a_ c:4 t:{ h:0 t:mod_a_ c:4 t:{ h:0 t:mod_a_ c:4 t:{ h:0 t:mod_a_ c:4 t:{ h:0 t:mod_a_ c:4 t:{ h:0 t:mod_a_ c:4 t:{ h:0 t:use_a:: c:4 t:{ s:0 t:b, s:1 x:48 l:-4 t:} e: t:; h:-4 t:} e: h:-4 t:} e: h:-4 t:} e: h:-4 t:} e: h:-4 t:} e: h:-4 t:} e: h:-4 t:} e: h:-4 t:} e: h:-4 t:} e: h:0→t:mod_a_{$ b:4 t:mod_a_{$ b:8 t:mod_a_{$ b:12 t:mod_a_{$ b:16 t:mod_a_{$ b:20 t:mod_a_{$ b:24 t:mod_a_{$ b:28 t:mod_a_{$ b:32 t:mod_a_{$ b:36 t:use_a::{$ b:40 t:b,$ b:40 x:48 t:,$ b:36 t:};$ b:32 t:}$ b:28 t:}$ b:24 t:}$ b:20 t:}$ b:16 t:}$ b:12 t:}$ b:8 t:}$ b:4 t:}$ t:}$";
    // A call in a body: what follows the group up to the next break counts.
    let calls =
        "t:fn_f()_ c:4 t:{ h:0 t:g c:4 t:( s:0 t:b, s:1 x:78 l:-4 t:) e: t:; h:-4 t:} e: h:0→t:fn_f()_{$____g(b,_ x:78 t:);$}$§\
        t:fn_f()_ c:4 t:{ h:0 t:g c:4 t:( s:0 t:b, s:1 x:79 l:-4 t:) e: t:; h:-4 t:} e: h:0→t:fn_f()_{$____g($________b,$________ x:79 t:,$____);$}$";
    // An arm, whose braces and comma are marks of breaks.
    let arms =
        "t:fn_f()_ c:4 t:{ h:0 t:match_x_ c:4 t:{ h:0 t:A_=>_ c:4 o:0 t:g( c:4 s:0 x:72 l:-4 t:) e: a:-4 e: h:-4 t:} e: h:-4 t:} e: h:0→t:fn_f()_{$____match_x_{$________A_=>_g( x:72 t:),$____}$}$§\
        t:fn_f()_ c:4 t:{ h:0 t:match_x_ c:4 t:{ h:0 t:A_=>_ c:4 o:0 t:g( c:4 s:0 x:73 l:-4 t:) e: a:-4 e: h:-4 t:} e: h:-4 t:} e: h:0→t:fn_f()_{$____match_x_{$________A_=>_{$____________g( x:73 t:)$________}$____}$}$";
    // A sum: of two breaks only the one after which too little fits is a newline.
    let sum =
        "t:fn_f()_ c:4 t:{ h:0 t:let_z_=_ i:4 t:0123456789012345678901234567890123456789 s:1 t:+_ x:40 s:1 t:+_d e: t:; h:-4 t:} e: h:0→t:fn_f()_{$____let_z_=_0123456789012345678901234567890123456789$________+_ x:40 t:_+_d;$}$";
    for rows in [lists, deep, calls, arms, sum] {
        for row in rows.split(BETWEEN) {
            lays(&rt, rt.alloc(), row)?;
        }
    }
    Ok(())
}

/// Feeds two texts and a break between them, in a group.
fn put_pair<E: Emit>(out: &mut E, left: &[u8], between: Break, right: &[u8]) -> Result<(), E::Fault>
    ensures { Did E.meanings out.old (tok.Begin true (pos 4) ∷ tok.Text left.now ∷ tok.Break between
        ∷ tok.Text right.now ∷ tok.End ∷ []) result out.new }
{
    out.begin(true, 4)?;
    out.text(left)?;
    out.brk(between)?;
    out.text(right)?;
    out.end()
}

/// Prints them into a sink that was handed in by reference.
fn print_pair<K: Sink>(
    alloc: Global,
    out: &mut K,
    left: &[u8],
    between: Break,
    right: &[u8],
) -> Result<(), PrintError>
    ensures ok { OnOk result (GrewBy (K.written out.old) (K.written out.new)
        (text_of (tok.Begin true (pos 4) ∷ tok.Text left.now ∷ tok.Break between
        ∷ tok.Text right.now ∷ tok.End ∷ []))) }
    ensures err { OnErr result (GrewByPrefix (K.written out.old) (K.written out.new)
        (text_of (tok.Begin true (pos 4) ∷ tok.Text left.now ∷ tok.Break between
        ∷ tok.Text right.now ∷ tok.End ∷ []))) }
    ensures cause { Blames (K.faults out.old) (K.faults out.new) result }
{
    let mut core = match Core::new(alloc) {
        Ok(core) => core,
        Err(NoMemory) => return Err(PrintError::NoMemory),
    };
    let mut press = Press::new(&mut core, out);
    put_pair(&mut press, left, between, right)?;
    press.finish()
}

// A sink that was handed in by reference, and one that is lent once more.
#[test]
fn into_a_sink(rt: HostRuntime) -> Result<(), Fail> {
    let alloc = rt.alloc();
    let mut sink = QuietSink::with_room(alloc, 100)?;
    print_pair(alloc, &mut sink, b"a", BLANK, b"b")?;
    let newline = Break {
        blank: 65535,
        ..BLANK
    };
    print_pair(alloc, &mut Lent::new(&mut sink), b"c", newline, b"d")?;
    assert_eq!(rt; sink.bytes(), b"a bc\n    d".as_slice());
    Ok(())
}

const BLANK: Break = Break {
    offset: 0,
    blank: 1,
    before: Mark::Absent,
    after: Mark::Absent,
    instead: Mark::Absent,
    never: false,
};

/// A consistent group of 200 texts of 10 bytes, which hasn't ended.
fn long_group(press: &mut Press<QuietSink>) -> Result<(), PrintError> {
    press.begin(true, 4)?;
    for _ in 0..200 {
        press.text(b"0123456789")?;
        press.brk(BLANK)?;
    }
    Ok(())
}

/// Feeds it to a press that has room for eight tokens at the least.
fn fill(rt: &impl Abort, press: &mut Press<QuietSink>) -> Result<(), Fail> {
    press.reserve(8)?;
    assert!(rt; press.spare() >= 8);
    long_group(press)?;
    Ok(())
}

/// How many of these bytes are neither a line end nor a blank.
fn letters(bytes: &[u8]) -> usize {
    let mut count = 0usize;
    for byte in bytes {
        if *byte != b'\n' && *byte != b' ' {
            count = count.saturating_add(1);
        }
    }
    count
}

// No more text waits than the space.
#[test]
fn lag(rt: HostRuntime) -> Result<(), Fail> {
    let alloc = rt.alloc();
    let mut sink = QuietSink::with_room(alloc, 10_000)?;
    let mut core = Core::new(alloc)?;
    fill(&rt, &mut Press::new(&mut core, &mut sink))?;
    assert!(rt; letters(sink.bytes()) >= 1911);
    Ok(())
}

/// What the first call of a printer over a sink that fails answers, as each later one does.
fn first_answer(rt: &impl Abort, printer: &mut Printer<MemorySink>) -> Result<(), PrintError> {
    let first = printer.text(b"a");
    assert_ne!(rt; first, Ok(()));
    assert_eq!(rt; printer.text(b"b"), first);
    assert_eq!(rt; printer.brk(BLANK), first);
    first
}

// Each call after a failed write answers what that one did.
#[test]
fn a_write_fails(rt: HostRuntime) -> Result<(), Fail> {
    let alloc = rt.alloc();
    let fail = List::from_vec(vec![in alloc; 0u64]?);
    let Ok(mut printer) = Printer::new(alloc, MemorySink::new(alloc, 1000, fail, 0)?) else {
        return Err(NoMemory.into());
    };
    let first = first_answer(&rt, &mut printer);
    if printer.open_groups() > 0 {
        return Err(Fail::new("a group is open"));
    }
    match printer.finish() {
        Ok(_) => assert!(rt; false),
        Err(fault) => assert_eq!(rt; Err(fault.error), first),
    }
    if first == Err(PrintError::NoMemory) {
        return Err(NoMemory.into());
    }
    Ok(())
}

/// The state after one more, of a linear congruential generator modulo 2^64.
fn next(state: u64) -> u64 {
    state
        .wrapping_mul(6364136223846793005)
        .wrapping_add(1442695040888963407)
}

/// The token that a state stands for.
fn pick(alloc: Global, state: u64) -> Result<Tok, NoMemory> {
    let size = ((state >> 40) % 24) as u16;
    let consistent = (state >> 33) % 12 == 8;
    match (state >> 33) % 12 {
        0..=3 => {
            let letters = &b"cccccccccccccccccccccccc"[..size as usize + 1];
            Ok(Tok::Text(Text::from_bytes(alloc, letters)?))
        }
        4..=6 => Ok(Tok::Break(Break {
            blank: size,
            ..BLANK
        })),
        7 => Ok(Tok::Break(Break {
            blank: 65535,
            ..BLANK
        })),
        8 | 9 => Ok(Tok::Begin {
            consistent,
            offset: if consistent { 4 } else { 2 },
        }),
        _ => Ok(Tok::End),
    }
}

/// 80 tokens, by a generator that begins with the seed, and an end for each group that is open then.
fn random(alloc: Global, seed: u64) -> Result<Stream, NoMemory>
    ensures { IfOk result (λ s. opened s 0 ≡ 0) }
{
    let mut stream = Stream::new(alloc);
    let mut groups = 0;
    let mut state = next(seed);
    for turn in 0..160u64 {
        if turn < 80 {
            let tok = pick(alloc, state)?;
            groups = add(&mut stream, groups, &tok)?;
            state = next(state);
        } else {
            groups = add(&mut stream, groups, &Tok::End)?;
        }
    }
    if groups > 0 {
        return Err(NoMemory);
    }
    Ok(stream)
}

#[test]
fn as_the_slow_printer(rt: HostRuntime) -> Result<(), Fail> {
    let alloc = rt.alloc();
    for seed in 0..200u64 {
        let stream = random(alloc, seed)?;
        let wanted = plain(alloc, &stream)?;
        prints(&rt, alloc, &stream, wanted.as_bytes())?;
    }
    Ok(())
}

//! A line's words: a keyword is told by its first eight bytes, as one number.

use super::out::Out;
use super::places::Act;
use super::requests::Ask;
use super::system::{Done, GREATEST, System};

/// The eight bytes from here on, the first lowest.
#[inline(always)]
fn eight(bytes: &[u8]) -> u64 {
    u64::from_le_bytes(bytes[..8].try_into().unwrap())
}

const ONES: u64 = 0x0101_0101_0101_0101;
const SPACES: u64 = 0x20 * ONES;

/// A word of at most eight bytes as a number: with spaces behind it.
const fn key(word: &[u8]) -> u64 {
    let (mut key, mut at) = (SPACES, 0);
    while at < word.len() {
        key ^= (0x20 ^ word[at] as u64) << (8 * at);
        at += 1;
    }
    key
}

/// How many bytes stand before the first space of the eight.
#[inline(always)]
fn before_space(eight: u64) -> usize {
    let zero_at_space = eight ^ SPACES;
    let marks = zero_at_space.wrapping_sub(ONES) & !zero_at_space & ONES << 7;
    (marks.trailing_zeros() / 8) as usize
}

/// The words that are left, each with the space before it.
struct Words<'a>(&'a [u8]);

impl Words<'_> {
    #[inline(always)]
    fn end(&self) -> Option<()> {
        self.0.is_empty().then_some(())
    }

    /// The next word as a number: without a 0 before it, and not too great.
    #[inline(always)]
    fn number(&mut self) -> Option<u64> {
        let [_, first, rest @ ..] = self.0 else { return None };
        let mut value = u64::from(first.wrapping_sub(b'0'));
        if value > 9 {
            return None;
        }
        let mut at = 0;
        if let [next, ..] = rest
            && *next != b' '
        {
            if value == 0 {
                return None;
            }
            while at < rest.len() && rest[at] != b' ' {
                let digit = u64::from(rest[at].wrapping_sub(b'0'));
                value = value * 10 + digit;
                if digit > 9 || value > GREATEST {
                    return None;
                }
                at += 1;
            }
        }
        self.0 = &rest[at..];
        Some(value)
    }

    #[inline(always)]
    fn last(&mut self) -> Option<u64> {
        let number = self.number()?;
        self.end()?;
        Some(number)
    }
}

/// The number of the first word, if it is one of at most eight bytes, and the words after it; of a longer one its first eight bytes.
#[inline(always)]
fn first_word(bytes: &[u8], count: usize) -> (u64, Words<'_>) {
    let eight = eight(bytes);
    let length = before_space(eight).min(count);
    let behind = u64::MAX.checked_shl(8 * length as u32).unwrap_or(0);
    ((eight & !behind) | (SPACES & behind), Words(&bytes[length..count]))
}

/// Answers the line that is so many of the bytes. What is done ends its own line. At least eight bytes stand there.
#[inline(always)]
pub fn answer(bytes: &[u8], count: usize, system: &mut Option<System>, out: &mut Out) {
    let (key, words) = first_word(bytes, count);
    match obey(key, words, system, out) {
        None => out.text(b"bad line\n"),
        Some(Ok(())) => {}
        Some(Err(refusal)) => {
            out.text(b"refused ");
            out.text(refusal.as_bytes());
            out.end_line();
        }
    }
}

macro_rules! keys {
    ($($name:ident = $word:literal)*) => { $(const $name: u64 = key($word);)* };
}

keys! {
    SIZE = b"size" START = b"start" ENTER = b"enter" LEAVE = b"leave" EDGE = b"edge" BEGIN = b"begin" CHANGE = b"change" END = b"end"
    WAKE = b"wake" CROSS = b"cross" TOVM = b"tovm" FROMVM = b"fromvm" TONATIVE = b"tonative" BLOCK = b"block" EXIT = b"exit" TAKE = b"take"
    FINISH = b"finish" CLEAR = b"clear" HOLD = b"hold" RELEASE = b"release" STACK = b"stack" INSTALL = b"install" INVALIDATE = b"invalida"
    ROUND = b"round" LOOK = b"look" WEIGH = b"weigh" FREE = b"free" ASK = b"ask" OPEN = b"open" TELL = b"tell" OPERATE = b"operate"
    CLOSE = b"close" COUNT = b"count" STATE = b"state" RESOLVE = b"resolve" DEPTH = b"depth" TOP = b"top" CENSUS = b"census"
}

/// Nothing where the line is bad.
#[inline(always)]
fn obey(key: u64, mut words: Words<'_>, system: &mut Option<System>, out: &mut Out) -> Option<Done> {
    let Some(known) = system else {
        return if key == SIZE { size(words, system, out) } else { None };
    };
    if !matches!(words.0, [] | [b' ', ..]) && key != INVALIDATE {
        return None;
    }
    let act = match key {
        EDGE => Act::Edge,
        LEAVE => Act::Leave,
        BEGIN => Act::Begin,
        CHANGE => Act::Change,
        END => Act::End,
        WAKE => Act::Wake,
        CROSS => Act::Cross,
        TOVM => Act::ToVm,
        FROMVM => Act::FromVm,
        TONATIVE => Act::ToNative,
        BLOCK => Act::Block,
        EXIT => Act::Exit,
        TAKE => Act::Take,
        FINISH => Act::Finish,
        CLEAR => Act::Clear,
        HOLD => Act::Hold,
        RELEASE => Act::Release,
        STACK => Act::Stack,
        ENTER => return enter(words, known, out),
        _ => return other(key, words, known, out),
    };
    Some(known.act(words.last()?, act, out))
}

fn size(mut words: Words<'_>, system: &mut Option<System>, out: &mut Out) -> Option<Done> {
    let (places, slots, methods) = (words.number()?, words.number()?, words.last()?);
    *system = System::new(places, slots, methods);
    Some(if system.is_some() { Ok(out.text(b"ok\n")) } else { Err("BadSize") })
}

#[inline(always)]
fn enter(mut words: Words<'_>, system: &mut System, out: &mut Out) -> Option<Done> {
    let (place, method) = (words.number()?, words.number()?);
    let code = if words.0.is_empty() { None } else { Some(words.last()?) };
    Some(system.act(place, Act::Enter(method, code), out))
}

/// The events that aren't a place's.
#[inline(always)]
fn other(key: u64, mut words: Words<'_>, system: &mut System, out: &mut Out) -> Option<Done> {
    Some(match key {
        LOOK => {
            let serial = words.number()?;
            system.look(serial, words.last()?, out)
        }
        TELL => system.tell(words.last()?, out),
        COUNT => system.count(words.last()?, out),
        STATE => system.state(words.last()?, out),
        RESOLVE => system.resolve(words.last()?, out),
        INSTALL => system.install(words.last()?, out),
        WEIGH => system.weigh(words.last()?, out),
        FREE => system.free(words.last()?, out),
        CLOSE if words.0.is_empty() => system.close(None, out),
        CLOSE => system.close(Some(words.last()?), out),
        START => words.end().map(|()| system.start(out))?,
        ROUND => words.end().map(|()| system.round(out))?,
        OPEN => words.end().map(|()| system.open(out))?,
        OPERATE => words.end().map(|()| system.operate(out))?,
        INVALIDATE => {
            words.0 = words.0.strip_prefix(b"te")?;
            matches!(words.0, [] | [b' ', ..]).then_some(())?;
            system.invalidate(words.last()?, out)
        }
        ASK => ask(words, system, out)?,
        _ => return None,
    })
}

fn ask(mut words: Words<'_>, system: &mut System, out: &mut Out) -> Option<Done> {
    let mut first = [b' '; 8];
    let rest = words.0.get(1..)?;
    let length = rest.iter().position(|byte| *byte == b' ').unwrap_or(rest.len());
    first.get_mut(..length)?.copy_from_slice(&rest[..length]);
    words.0 = &rest[length..];
    let ask = match eight(&first) {
        DEPTH => Ask::Depth,
        TOP => Ask::Top,
        COUNT => Ask::CountOf(words.number()?),
        CENSUS => return words.end().map(|()| system.requests.ask_census(out)),
        _ => return None,
    };
    // a line has room for no more
    let (mut names, mut count) = ([0; 512], 0);
    while !words.0.is_empty() {
        names[count] = words.number()?;
        count += 1;
    }
    Some(system.requests.ask(&names[..count], ask, out))
}

//! Why a call isn't done. The numbers are those of `safepoint.h`, and the texts those of `sp_text`:
//! tests/codes.py checks both.
use std::error::Error;
use std::fmt;

macro_rules! refusals {
    ($($name:ident = $number:literal, $text:literal;)*) => {
        /// Why a call isn't done. The call has changed nothing then, except where `safepoint.h` says so.
        #[derive(Clone, Copy, Debug, PartialEq, Eq, Hash)]
        #[non_exhaustive]
        pub enum Refusal {
            $(#[doc = $text] $name,)*
            /// An answer that this crate doesn't know.
            Other(i64),
        }

        impl Refusal {
            pub(crate) fn of(answer: i64) -> Refusal {
                match answer {
                    $($number => Refusal::$name,)*
                    other => Refusal::Other(other),
                }
            }
        }

        impl fmt::Display for Refusal {
            fn fmt(&self, out: &mut fmt::Formatter<'_>) -> fmt::Result {
                match self {
                    $(Refusal::$name => out.write_str($text),)*
                    Refusal::Other(answer) => write!(out, "an answer that isn't known: {answer}"),
                }
            }
        }
    };
}

refusals! {
    Again = -1, "a lock is taken, or what the call needs isn't there yet: make it again";
    NoMemory = -2, "there is no memory";
    NotThis = -3, "the party isn't in this part";
    Illegal = -4, "the thread isn't in a state for this";
    NoSuchMethod = -5, "there is no such method";
    DepthFull = -6, "the stack has 256 frames";
    EmptyStack = -7, "the stack is empty";
    StackNotEmpty = -8, "the stack isn't empty";
    SafepointOpen = -9, "a census is open";
    PlacesFull = -10, "each place has a live thread";
    Spent = -11, "the names, numbers or moments are given out";
    HistoryFull = -12, "the history has no room";
    QueueFull = -13, "as many requests wait as can";
    NoTargets = -14, "no target was named";
    BadTargets = -15, "a target was named twice, or there are too many";
    AlreadyOpen = -16, "a request is open";
    QueueEmpty = -17, "no request waits";
    NothingOpen = -18, "no request is open";
    NotOf = -19, "no open request is of it, or the open one isn't of this kind";
    NotTold = -20, "the thread was told nothing that is open";
    AlreadyTold = -21, "the thread was told all that is open";
    AlreadyDone = -22, "it is done";
    Held = -23, "the thread is held";
    NotHeld = -24, "the thread isn't held";
    Vacant = -25, "no live thread has the place";
    NoSuchPlace = -26, "there is no such place";
    NotDone = -27, "a live target isn't done, or the census isn't operated";
    TableFull = -28, "each slot has a code that isn't freed";
    Unknown = -29, "there is no code of the serial, or it is freed";
    NotInUse = -30, "the code isn't in use";
    NotSafe = -31, "the thread owns itself";
    NotAllHeld = -32, "not all live threads are held";
    NotAnswered = -33, "no answer of the name in the operation is kept";
    StillInUse = -34, "the code may still be entered";
    NotWeighed = -35, "the code isn't one that can be weighed";
    Late = -36, "a thread may still enter the code, or hasn't told that it has";
    Run = -37, "a held thread is served next";
    Awaits = -38, "threads have still to come";
    AtSafepoint = -39, "all live threads are held at a safepoint";
    Made = -40, "the party is made already";
    BadSize = -41, "a size is 0, or above its limit";
    BadAsk = -42, "there is no such ask";
    Pending = -43, "the operation isn't closed yet";
    Timeout = -100, "the time is over";
}

impl Error for Refusal {}

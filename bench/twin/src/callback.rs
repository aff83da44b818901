//! What a job calls on the stack of its target: a query, which takes no memory, or a boxed closure.
use crate::image::Image;

/// What a handshake asks of each target. The measures ask for the depth alone; as in the product, an answer looks which it is.
#[derive(Clone, Copy, PartialEq, Eq)]
pub enum Ask {
    Depth,
    CountOf(u64),
    Top,
}
impl Ask {
    #[inline(always)]
    fn reply_on<I: Image>(self, image: &I) -> u64 {
        match self {
            Ask::Depth => image.depth() as u64,
            Ask::CountOf(serial) => image.frames().iter().filter(|frame| frame.serial == serial).count() as u64,
            Ask::Top => image.frames().last().map_or(0, |frame| frame.serial),
        }
    }
}

/// A callback, which is called at most once.
pub trait Callback<I>: Send {
    fn of(ask: Ask) -> Self;
    fn asks(&self) -> Ask;
    /// What it answers on the image. Then its memory is free again.
    fn answer(self, image: &I) -> u64;
}

/// Answers its ask itself.
pub struct Query(Ask);
impl<I: Image> Callback<I> for Query {
    fn of(ask: Ask) -> Self {
        Query(ask)
    }
    #[inline(always)]
    fn asks(&self) -> Ask {
        self.0
    }
    #[inline(always)]
    fn answer(self, image: &I) -> u64 {
        self.0.reply_on(image)
    }
}

/// A closure in a box of its own, beside what it asks.
pub struct Boxed<I>(Ask, Box<dyn Fn(&I) -> u64 + Send>);
impl<I: Image> Callback<I> for Boxed<I> {
    fn of(ask: Ask) -> Self {
        Boxed(ask, Box::new(move |image| ask.reply_on(image)))
    }
    #[inline(always)]
    fn asks(&self) -> Ask {
        self.0
    }
    #[inline(always)]
    fn answer(self, image: &I) -> u64 {
        (self.1)(image)
    }
}

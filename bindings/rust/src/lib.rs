//! Stops the threads of a runtime at safe points, runs callbacks there, and says when machine code can be freed.
//!
//! [`Safepoints`] makes a system and is its coordinator: it works on what is asked. A [`Client`] asks, and becomes a
//! running [`Thread`] by its start. All three are a [`Party`], which may ask and install codes. Threads share a
//! [`System`], and join it at any time. No call is made with a pointer, and none is unsafe.
//!
//! ```
//! use safepoint::{Ask, Safepoints};
//!
//! let mut system = Safepoints::new(8, 16, 4)?;
//! let client = system.client()?;
//! let (ready, started) = std::sync::mpsc::channel();
//! let (end, ended) = std::sync::mpsc::channel::<()>();
//! let running = std::thread::spawn(move || {
//!     let mut thread = client.start(|_served| {})?;
//!     ready.send(thread.name()).unwrap();
//!     thread.call(0, |thread| {
//!         while ended.try_recv().is_err() {
//!             thread.poll()?;
//!         }
//!         Ok(())
//!     })
//! });
//! let name = started.recv().unwrap();
//! let operation = system.submit(&[name], Ask::Depth)?;
//! assert_eq!(system.drive(|_served| {})?, operation);
//! assert_eq!(system.reply(operation, name)?, 1);
//! end.send(()).unwrap();
//! running.join().unwrap()?;
//! # Ok::<(), safepoint::Refusal>(())
//! ```
//!
//! # Panics of a body or a callback
//!
//! A panic leaves no thread that others wait for. A method, native code and a wait are left where their body panics,
//! and a dropped [`Thread`] exits. A callback that panics unwinds no frame of C: the stop ends first, and then the
//! panic goes on in the thread that called. [`Thread`] and [`Safepoints`] say it call by call.
//!
//! # What a host keeps
//!
//! The types see to it that one thread at a time calls with a party. The host sees to the rest of the list in
//! docs/start/EMBEDDING.md: above all, each entry of a method is a [`Thread::call`] or a [`Thread::enter`], a code's
//! memory goes only after [`Reclaimed::Freed`], and each call finds 12 KB of stack.
//!
//! # Linking
//!
//! The calls are those of libsafepoint.a, which are proved. The waits are those of libsafepoint_wait.a, in C, and
//! nobody proved them or this crate. The build links the archives that `SAFEPOINT_ARCHIVES` names, separated by spaces,
//! or else the installed package `safepoint` of pkg-config.
#![deny(missing_docs, unsafe_op_in_unsafe_fn)]
#![warn(
    clippy::missing_errors_doc,
    clippy::missing_panics_doc,
    clippy::undocumented_unsafe_blocks
)]

mod callback;
mod client;
mod party;
mod refusal;
mod shared;
mod stats;
mod sys;
mod system;
mod thread;
mod waiting;

pub use callback::Served;
pub use client::{Client, StartError};
pub use party::{Ask, Kind, Party};
pub use refusal::Refusal;
pub use shared::System;
pub use stats::{Stats, Times};
pub use system::{Doing, LateThread, Next, Reclaimed, Safepoints};
pub use thread::Thread;

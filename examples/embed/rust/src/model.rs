//! The model as a safe type, over the C calls of `crates/model/include/model.h`.

use std::ffi::c_void;
use std::ptr::null_mut;

/// `struct model`. A model's own pointer is in it, so it may be moved, and stays on its thread.
#[repr(C)]
struct Place {
    made: bool,
    at: *mut c_void,
}

extern "C" {
    fn model_new(model: &mut Place, places: usize, slots: usize, methods: usize) -> isize;
    fn model_line(model: &mut Place, line: *const u8, length: usize, answer: *mut u8, room: usize) -> isize;
    fn model_answer(model: &mut Place, answer: *mut u8, room: usize) -> isize;
    fn model_needs(model: &mut Place) -> isize;
    fn model_free(model: &mut Place);
}

const ANSWER_TOO_LONG: isize = -3;

/// A fault's number, as the header has it.
#[derive(Debug)]
pub struct Fault(pub isize);

pub struct Model(Place);

impl Model {
    pub fn new(places: usize, slots: usize, methods: usize) -> Result<Model, Fault> {
        let mut place = Place { made: false, at: null_mut() };
        // SAFETY: the place is all zeros but for padding.
        match unsafe { model_new(&mut place, places, slots, methods) } {
            0 => Ok(Model(place)),
            fault => Err(Fault(fault)),
        }
    }

    /// The answer to a line. An answer that needs more room than a short one gets it.
    pub fn line(&mut self, line: &str) -> Result<String, Fault> {
        let mut answer = vec![0; 128];
        // SAFETY: both slices are whole, and neither pointer is null. They don't overlap: one is borrowed, the other new.
        let mut length = unsafe { model_line(&mut self.0, line.as_ptr(), line.len(), answer.as_mut_ptr(), answer.len()) };
        if length == ANSWER_TOO_LONG {
            // SAFETY: the place has the model that `new` made.
            answer.resize(unsafe { model_needs(&mut self.0) } as usize, 0);
            // SAFETY: as above.
            length = unsafe { model_answer(&mut self.0, answer.as_mut_ptr(), answer.len()) };
        }
        if length < 0 {
            return Err(Fault(length));
        }
        answer.truncate(length as usize);
        Ok(String::from_utf8(answer).expect("an answer is ASCII"))
    }
}

impl Drop for Model {
    fn drop(&mut self) {
        // SAFETY: the place has the model that `new` made.
        unsafe { model_free(&mut self.0) }
    }
}

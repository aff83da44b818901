//! Two images of a stack: what calls, returns and publications cost depends on this choice more than on the atomic steps.
#[derive(Clone, Copy)]
pub struct Frame {
    pub method: u32,
    pub slot: u32,
    pub serial: u64,
}
pub const INTERP: u32 = u32::MAX;
#[derive(Clone, Copy, PartialEq, Eq, Debug)]
pub struct CodeId {
    pub slot: u32,
    pub serial: u64,
}

pub trait Image: Send + 'static {
    fn new(slots: usize) -> Self;
    fn depth(&self) -> usize;
    fn push(&mut self, f: Frame);
    fn pop(&mut self) -> Option<Frame>;
    /// Calls `f(code, by)` for each changed code, rising by serial, and leaves the image settled.
    fn changes(&mut self, f: impl FnMut(CodeId, i32));
    fn frames(&self) -> &[Frame];
}

/// frames in one block, never moved
pub struct Stack {
    f: Box<[Frame; 256]>,
    len: usize,
}
impl Stack {
    fn new() -> Self {
        Stack { f: Box::new([Frame { method: 0, slot: INTERP, serial: 0 }; 256]), len: 0 }
    }
    #[inline(always)]
    fn push(&mut self, x: Frame) {
        self.f[self.len & 255] = x;
        self.len += 1;
    }
    #[inline(always)]
    fn pop(&mut self) -> Option<Frame> {
        if self.len == 0 {
            return None;
        }
        self.len -= 1;
        Some(self.f[self.len & 255])
    }
}

/// Net per slot in an array, with a list of the slots that have a code there. O(1) a push and a pop; a publication sorts what changed, and
/// the cells keep their codes where each has a net, as the product's do.
#[derive(Clone, Copy)]
struct Cell {
    serial: u64,
    net: i32,
}
pub struct Dense {
    s: Stack,
    cell: Box<[Cell]>,
    touched: Vec<u16>,
    tmp: Vec<(u64, u16, i16)>,
}
impl Dense {
    #[inline(always)]
    fn bump(&mut self, f: &Frame, by: i32) {
        let c = &mut self.cell[f.slot as usize];
        c.net += by;
        if c.serial != f.serial {
            Self::touch(c, &mut self.touched, f);
        }
    }
    #[cold]
    #[inline(never)]
    fn touch(c: &mut Cell, t: &mut Vec<u16>, f: &Frame) {
        if c.serial == 0 {
            t.push(f.slot as u16);
        }
        c.serial = f.serial;
    }
}
impl Image for Dense {
    fn new(slots: usize) -> Self {
        Dense {
            s: Stack::new(),
            cell: vec![Cell { serial: 0, net: 0 }; slots].into(),
            touched: Vec::with_capacity(slots),
            tmp: Vec::with_capacity(slots),
        }
    }
    #[inline(always)]
    fn depth(&self) -> usize {
        self.s.len
    }
    #[inline(always)]
    fn push(&mut self, f: Frame) {
        if f.slot != INTERP {
            self.bump(&f, 1);
        }
        self.s.push(f);
    }
    #[inline(always)]
    fn pop(&mut self) -> Option<Frame> {
        let f = self.s.pop()?;
        if f.slot != INTERP {
            self.bump(&f, -1);
        }
        Some(f)
    }
    #[inline]
    fn changes(&mut self, mut g: impl FnMut(CodeId, i32)) {
        if let [i] = self.touched[..] {
            // the usual case: no sort, no second list
            let c = &mut self.cell[i as usize];
            let n = std::mem::take(&mut c.net);
            if n != 0 {
                g(CodeId { slot: i as u32, serial: c.serial }, n);
            } else {
                c.serial = 0;
                self.touched.clear();
            }
            return;
        }
        // What moved since the last publication is likely to move again: its cells keep their codes, where all moved.
        let all = self.touched.iter().all(|&i| self.cell[i as usize].net != 0);
        for &i in &self.touched {
            let c = &mut self.cell[i as usize];
            if c.net != 0 {
                self.tmp.push((c.serial, i, c.net as i16));
                c.net = 0;
            }
            if !all {
                c.serial = 0;
            }
        }
        if !all {
            self.touched.clear();
        }
        if self.tmp.len() > 1 {
            self.tmp.sort_unstable();
        }
        for &(serial, slot, n) in &self.tmp {
            g(CodeId { slot: slot as u32, serial }, n as i32);
        }
        self.tmp.clear();
    }
    fn frames(&self) -> &[Frame] {
        &self.s.f[..self.s.len]
    }
}

/// A list of (serial, slot, net), rising, without zeros, changed at each push and pop.
pub struct Sorted {
    s: Stack,
    list: Vec<(u64, u32, i32)>,
}
impl Sorted {
    #[inline(always)]
    fn bump(&mut self, f: &Frame, by: i32) {
        let p = self.list.partition_point(|e| (e.0, e.1) < (f.serial, f.slot));
        match self.list.get_mut(p) {
            Some(e) if e.0 == f.serial && e.1 == f.slot => {
                e.2 += by;
                if e.2 == 0 {
                    self.list.remove(p);
                }
            }
            _ => self.list.insert(p, (f.serial, f.slot, by)),
        }
    }
}
impl Image for Sorted {
    fn new(_: usize) -> Self {
        Sorted { s: Stack::new(), list: Vec::with_capacity(512) }
    }
    #[inline(always)]
    fn depth(&self) -> usize {
        self.s.len
    }
    #[inline(always)]
    fn push(&mut self, f: Frame) {
        if f.slot != INTERP {
            self.bump(&f, 1);
        }
        self.s.push(f);
    }
    #[inline(always)]
    fn pop(&mut self) -> Option<Frame> {
        let f = self.s.pop()?;
        if f.slot != INTERP {
            self.bump(&f, -1);
        }
        Some(f)
    }
    #[inline]
    fn changes(&mut self, mut g: impl FnMut(CodeId, i32)) {
        for &(serial, slot, n) in &self.list {
            g(CodeId { slot, serial }, n);
        }
        self.list.clear();
    }
    fn frames(&self) -> &[Frame] {
        &self.s.f[..self.s.len]
    }
}

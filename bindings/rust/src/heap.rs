//! The heap of the library, if its archive is linked without one: the three functions of `bindings/c/heap.c`.
//!
//! While the crate calls the library ([`with_region`]), short blocks are cut from a region of the thread, one behind
//! another. All others come from the C library's heap, and so do those of calls that C makes beside the crate. The
//! address tells whether a block lies in the region.
//!
//! The library gives each block back before its call returns, in the thread of the call, and calls nothing but these
//! functions meanwhile. So a block in the region is moved and given back during the call that asked for it, and none is
//! left when the call has returned.

use std::cell::Cell;
use std::ptr;

/// Bytes of a region, and of the longest block there. A picture begins with one of these.
const LEN: usize = 1 << 16;
const LONGEST: usize = 2048;

/// Blocks in a region take a multiple of so many bytes, and are aligned to them. The library asks for no more.
const GRAIN: usize = align_of::<u128>();

/// What blocks are cut from.
struct Region {
    /// Memory of `LEN` bytes, or null.
    start: Cell<*mut u8>,
    /// How many of these may be cut: none while no call runs.
    len: Cell<usize>,
    /// How many are cut, and how many blocks were not given back.
    cut: Cell<usize>,
    held: Cell<usize>,
}

/// The memory of a region, if there is some.
struct Memory(Cell<Vec<u128>>);

thread_local! {
    static REGION: Region = const {
        Region { start: Cell::new(ptr::null_mut()), len: Cell::new(0), cut: Cell::new(0), held: Cell::new(0) }
    };

    /// That of this thread, from its first call to its end.
    static MEMORY: Memory = const { Memory(Cell::new(Vec::new())) };
}

impl Drop for Memory {
    fn drop(&mut self) {
        REGION.with(|region| region.start.set(ptr::null_mut()));
    }
}

/// A call of the library, however it ends. It has what was `len` before: 0, except within another call.
struct Call(usize);

impl Call {
    fn begin() -> Call {
        REGION.with(|region| {
            if region.start.get().is_null() {
                region.start.set(memory());
            }
            Call(region.len.replace(if region.start.get().is_null() { 0 } else { LEN }))
        })
    }
}

impl Drop for Call {
    fn drop(&mut self) {
        REGION.with(|region| {
            region.len.set(self.0);
            if self.0 == 0 {
                region.cut.set(0);
            }
        });
    }
}

/// Memory for the region of this thread, or null if it is refused, or if the thread ends.
#[cold]
fn memory() -> *mut u8 {
    let start = MEMORY.try_with(|memory| {
        let mut bytes = memory.0.take();
        let start = bytes.try_reserve_exact(LEN / GRAIN).map(|()| bytes.as_mut_ptr().cast());
        memory.0.set(bytes);
        start.ok()
    });
    start.ok().flatten().unwrap_or(ptr::null_mut())
}

/// Does this, which calls the library, while short blocks are cut from the region of this thread.
pub(crate) fn with_region<T>(call: impl FnOnce() -> T) -> T {
    let _call = Call::begin();
    let held = REGION.with(|region| region.held.get());
    let done = call();
    if cfg!(any(test, debug_assertions)) {
        assert_eq!(REGION.with(|region| region.held.get()), held, "a block was not given back");
    }
    done
}

impl Region {
    /// Whether a block lies here.
    fn has(&self, bytes: *mut u8) -> bool {
        bytes.addr().wrapping_sub(self.start.get().addr()) < self.len.get()
    }

    /// A block of so many bytes, if there is room.
    fn take(&self, size: usize) -> Option<*mut u8> {
        if size > LONGEST {
            return None;
        }
        let start = self.cut.get();
        let end = start + ((size + GRAIN - 1) & !(GRAIN - 1)); // (`next_multiple_of` takes twice the instructions.)
        if end > self.len.get() {
            return None;
        }
        self.cut.set(end);
        self.held.set(self.held.get() + 1);
        Some(self.start.get().wrapping_add(start))
    }

    /// Takes back a block. (Its bytes are cut again in the next call.)
    fn give_back(&self) {
        self.held.set(self.held.get() - 1);
    }
}

/// What the library is answered: a block, or a refusal.
#[repr(C)]
struct Block {
    is_there: bool,
    bytes: *mut u8,
}

impl Block {
    /// What the C library answers. (An address is never null, also that of a refusal.)
    fn of(bytes: *mut u8) -> Block {
        let is_there = !bytes.is_null();
        Block { is_there, bytes: if is_there { bytes } else { ptr::dangling_mut() } }
    }
}

extern "C" {
    fn malloc(size: usize) -> *mut u8;
    fn realloc(bytes: *mut u8, size: usize) -> *mut u8;
    fn free(bytes: *mut u8);
}

/// A block of so many bytes, or of `align` for none.
#[unsafe(no_mangle)]
extern "C" fn rattle_alloc(size: usize, align: usize) -> Block {
    let size = if size == 0 { align } else { size };
    match REGION.with(|region| region.take(size)) {
        Some(bytes) => Block { is_there: true, bytes },
        // `malloc` takes each size.
        None => Block::of(unsafe { malloc(size) }),
    }
}

/// A block of so many bytes, or of `align` for none, in place of this one, and with the first `kept` bytes of it, which
/// both have. If it is refused, this one stays.
#[unsafe(no_mangle)]
unsafe extern "C" fn rattle_realloc(bytes: *mut u8, kept: usize, size: usize, align: usize) -> Block {
    if !REGION.with(|region| region.has(bytes)) {
        // Each block that lies in no region is of this heap.
        return Block::of(unsafe { realloc(bytes, if size == 0 { align } else { size }) });
    }
    let block = rattle_alloc(size, align);
    if block.is_there {
        // Both blocks have so many bytes, and no two blocks overlap. This one is not used any more.
        unsafe {
            ptr::copy_nonoverlapping(bytes, block.bytes, kept);
            rattle_dealloc(bytes);
        }
    }
    block
}

/// Takes back a block.
#[unsafe(no_mangle)]
unsafe extern "C" fn rattle_dealloc(bytes: *mut u8) {
    REGION.with(|region| match region.has(bytes) {
        true => region.give_back(),
        // Each block that lies in no region is of this heap.
        false => unsafe { free(bytes) },
    })
}

#[cfg(test)]
mod tests {
    use super::{rattle_alloc, rattle_dealloc, rattle_realloc, with_region, LEN, LONGEST, REGION};
    use std::hint::black_box;
    use std::ops::Range;
    use std::panic;
    use std::sync::Barrier;
    use std::thread;

    /// A block that is held, full of one byte.
    struct Held {
        bytes: *mut u8,
        size: usize,
        fill: u8,
    }

    /// A request that has to be granted.
    fn ask(size: usize, fill: u8) -> Held {
        let block = rattle_alloc(size, 8);
        assert!(block.is_there);
        let held = Held { bytes: block.bytes, size: if size == 0 { 8 } else { size }, fill };
        unsafe { held.bytes.write_bytes(fill, held.size) };
        held
    }

    impl Held {
        fn begins_with(&self, count: usize) -> bool {
            (0..count).all(|at| unsafe { self.bytes.add(at).read() } == self.fill)
        }

        /// Whether it lies in the region. Its bytes have to be as they were written.
        fn is_in_region(&self) -> bool {
            assert!(self.begins_with(self.size));
            REGION.with(|region| region.has(self.bytes))
        }

        /// The block with another size, which has to be granted.
        fn resized(self, size: usize) -> Held {
            let kept = self.size.min(size);
            let block = unsafe { rattle_realloc(self.bytes, kept, size, 8) };
            assert!(block.is_there);
            let held = Held { bytes: block.bytes, size, ..self };
            assert!(held.begins_with(kept));
            unsafe { held.bytes.write_bytes(held.fill, size) };
            held
        }

        fn give_back(self) {
            assert!(self.begins_with(self.size));
            unsafe { rattle_dealloc(self.bytes) };
        }

        fn range(&self) -> Range<usize> {
            self.bytes.addr()..self.bytes.addr() + self.size
        }
    }

    fn overlap(a: &Range<usize>, b: &Range<usize>) -> bool {
        a.start < b.end && b.start < a.end
    }

    fn has_no_region() -> bool {
        REGION.with(|region| region.len.get() == 0)
    }

    #[test]
    fn short_blocks_lie_in_the_region() {
        with_region(|| {
            let blocks = [0, 1, 16, 17, LONGEST, LONGEST + 1].map(|size| ask(size, size as u8));
            assert_eq!(blocks.each_ref().map(Held::is_in_region), [true, true, true, true, true, false]);
            blocks.into_iter().for_each(Held::give_back);
        });
    }

    #[test]
    fn blocks_are_aligned_and_lie_apart() {
        with_region(|| {
            let blocks: Vec<Held> = (0..500).map(|size| ask(size, size as u8)).collect();
            assert!(blocks[0].is_in_region() && !blocks[499].is_in_region());
            assert!(blocks.iter().all(|it| it.bytes.addr() % 16 == 0));
            let ranges: Vec<_> = blocks.iter().map(Held::range).collect();
            assert!((0..500).all(|at| ranges[..at].iter().all(|other| !overlap(&ranges[at], other))));
            blocks.into_iter().for_each(Held::give_back);
        });
    }

    #[test]
    fn each_call_has_the_whole_region() {
        for _ in 0..3 {
            with_region(|| {
                let mut blocks = vec![ask(16, 1)];
                while blocks.last().is_some_and(Held::is_in_region) {
                    blocks.push(ask(16, 1));
                }
                assert_eq!(blocks.len() - 1, LEN / 16);
                blocks.into_iter().for_each(Held::give_back);
            });
        }
    }

    #[test]
    fn blocks_get_other_sizes() {
        with_region(|| {
            let grown = ask(1, 1).resized(LONGEST);
            assert!(grown.is_in_region());
            let moved_out = grown.resized(LONGEST + 1);
            assert!(!moved_out.is_in_region());
            let still_out = moved_out.resized(2);
            assert!(!still_out.is_in_region());
            let shrunk = ask(100, 2).resized(3);
            assert!(shrunk.is_in_region());
            // (There is no room behind some.)
            let mut full = ask(1, 3);
            while full.is_in_region() {
                full = full.resized(1000);
            }
            [still_out, shrunk, full].into_iter().for_each(Held::give_back);
        });
    }

    #[test]
    fn refused_requests_leave_all_as_it_was() {
        let refuses = || {
            let huge = black_box(usize::MAX / 2 - 100);
            let held = ask(100, 1);
            // (A block that nobody sees needs no memory, if the compiler looks into `malloc`.)
            for block in black_box([rattle_alloc(huge, 16), unsafe { rattle_realloc(held.bytes, 100, huge, 16) }]) {
                assert!(!block.is_there && !block.bytes.is_null());
            }
            assert!(held.begins_with(100));
            held.resized(200).give_back();
        };
        refuses();
        with_region(refuses);
    }

    #[test]
    fn without_a_region_all_is_of_the_c_library() {
        let before = ask(8, 1);
        let before = with_region(|| {
            assert!(!before.is_in_region());
            let resized = before.resized(9);
            assert!(!resized.is_in_region());
            resized
        });
        before.resized(70_000).give_back();
        let after = ask(0, 2).resized(1);
        assert!(!after.is_in_region());
        after.give_back();
    }

    #[test]
    fn a_call_within_a_call_has_what_is_left_of_the_region() {
        with_region(|| {
            let outer = ask(100, 1);
            with_region(|| {
                let inner = ask(100, 2);
                assert!(inner.is_in_region() && !overlap(&inner.range(), &outer.range()));
                inner.give_back();
            });
            let later = ask(100, 3);
            assert!(outer.is_in_region() && later.is_in_region() && !overlap(&later.range(), &outer.range()));
            outer.resized(200).give_back();
            later.give_back();
        });
        assert!(has_no_region());
    }

    #[test]
    fn no_region_is_left_behind_a_panic() {
        assert!(panic::catch_unwind(|| with_region(|| panic!("on purpose"))).is_err());
        assert!(has_no_region());
    }

    #[test]
    fn blocks_have_to_be_given_back() {
        assert!(panic::catch_unwind(|| with_region(|| ask(1, 1).size)).is_err());
        assert!(has_no_region());
    }

    #[test]
    fn threads_have_regions_of_their_own() {
        let all = Barrier::new(8);
        let work = |fill| {
            with_region(|| {
                let held = ask(64, fill);
                all.wait();
                assert!(held.is_in_region());
                let held = held.resized(640);
                assert!(held.is_in_region());
                let range = held.range();
                all.wait();
                held.give_back();
                range
            })
        };
        let ranges: Vec<Range<usize>> = thread::scope(|scope| {
            let threads: Vec<_> = (0..8).map(|fill| scope.spawn(move || work(fill))).collect();
            threads.into_iter().map(|it| it.join().unwrap()).collect()
        });
        assert!((0..8).all(|at| ranges[..at].iter().all(|other| !overlap(&ranges[at], other))));
    }

    /// What draws when its thread ends.
    struct AtEnd;

    thread_local! {
        static AT_END: AtEnd = const { AtEnd };
    }

    impl Drop for AtEnd {
        fn drop(&mut self) {
            with_region(|| ask(10, 1).resized(20).give_back());
        }
    }

    #[test]
    fn calls_may_be_made_while_a_thread_ends() {
        for is_called_before in [false, true] {
            let ended = thread::spawn(move || {
                AT_END.with(|_| ());
                if is_called_before {
                    with_region(|| ask(10, 1).give_back());
                }
            });
            ended.join().unwrap();
        }
    }
}

//! The exported functions, as include/simmerroof.h declares them. The arrays that are lent are listed here once, in the
//! order in which the library takes them; the number at the end of the two names is that of these lengths, and a library of
//! other lengths does not link.

/// code, length, place
pub type Answer = [u64; 3];

macro_rules! lent {
    ($($array:ident: [$of:ty; $n:literal],)*) => {
        /// The working arrays.
        #[repr(C)]
        pub struct Work {
            $($array: [$of; $n],)*
        }

        unsafe extern "C" {
            fn simmerroof_prune_in3(
                mode: u8,
                mask: u16,
                file: *const u8,
                file_len: usize,
                request: *const u16,
                request_len: usize,
                out: *mut u8,
                out_len: usize,
                $($array: *mut [$of; $n],)*
                answer: *mut Answer,
            );
            fn simmerroof_prune_all_in3(
                mode: u8,
                mask: u16,
                file: *const u8,
                file_len: usize,
                out: *mut u8,
                out_len: usize,
                $($array: *mut [$of; $n],)*
                answer: *mut Answer,
            );
        }

        /// The lent form: without a request every field is asked for.
        pub fn prune_in(
            mode: u8,
            mask: u16,
            file: &[u8],
            request: Option<&[u16]>,
            out: &mut [u8],
            work: &mut Work,
        ) -> Answer {
            let mut answer = [0; 3];
            let (start, length) = (out.as_mut_ptr(), out.len());
            // SAFETY: as in `prune`; the arrays are of the sizes that the library asks for and are borrowed exclusively
            unsafe {
                match request {
                    Some(r) => simmerroof_prune_in3(
                        mode, mask, file.as_ptr(), file.len(), r.as_ptr(), r.len(), start, length,
                        $(&mut work.$array,)*
                        &mut answer,
                    ),
                    None => simmerroof_prune_all_in3(
                        mode, mask, file.as_ptr(), file.len(), start, length,
                        $(&mut work.$array,)*
                        &mut answer,
                    ),
                }
            }
            answer
        }
    };
}

lent! {
    cells: [u64; 12288],
    rows: [u16; 1065088],
    nodes: [u64; 1792],
    names: [u16; 8208],
    fields: [u16; 262144],
    widths: [u64; 512],
    keys: [u64; 2448],
    arows: [u16; 2048],
    acells: [u64; 12288],
    brows: [u16; 2048],
    bcells: [u64; 12288],
    records: [u64; 3328],
    items: [u16; 16896],
    icells: [u64; 12288],
}

// what include/simmerroof.h and the documentation of `Pruner` say
const _: () = assert!(size_of::<Work>() == 3_170_720);

impl Work {
    /// On the heap from the start: it is too large to pass through the stack.
    pub fn new() -> Box<Work> {
        // SAFETY: every field is an array of whole numbers, of which 0 is one
        unsafe { Box::new_zeroed().assume_init() }
    }
}

unsafe extern "C" {
    fn simmerroof_prune(
        mode: u8,
        mask: u16,
        file: *const u8,
        file_len: usize,
        request: *const u16,
        request_len: usize,
        out: *mut u8,
        out_len: usize,
        answer: *mut Answer,
    );
    fn simmerroof_prune_all(
        mode: u8,
        mask: u16,
        file: *const u8,
        file_len: usize,
        out: *mut u8,
        out_len: usize,
        answer: *mut Answer,
    );
}

/// The plain form: without a request every field is asked for.
pub fn prune(mode: u8, mask: u16, file: &[u8], request: Option<&[u16]>, out: &mut [u8]) -> Answer {
    let mut answer = [0; 3];
    let (start, length) = (out.as_mut_ptr(), out.len());
    // SAFETY: pointers and lengths come from slices, so they are valid, aligned and not null; the two that are written
    // are exclusive borrows and overlap nothing
    unsafe {
        match request {
            Some(r) => {
                simmerroof_prune(mode, mask, file.as_ptr(), file.len(), r.as_ptr(), r.len(), start, length, &mut answer)
            }
            None => simmerroof_prune_all(mode, mask, file.as_ptr(), file.len(), start, length, &mut answer),
        }
    }
    answer
}

unsafe extern "C" {
    fn simmerroof_check(file: *const u8, file_len: usize, answer: *mut [u64; 4]);
}

/// code, place, nodes, fields
pub fn check(file: &[u8]) -> [u64; 4] {
    let mut answer = [0; 4];
    // SAFETY: as in `prune`
    unsafe { simmerroof_check(file.as_ptr(), file.len(), &mut answer) }
    answer
}

unsafe extern "C" {
    fn simmerroof_list_plan(file: *const u8, file_len: usize, out: *mut u8, out_len: usize, answer: *mut Answer);
}

pub fn list_plan(file: &[u8], out: &mut [u8]) -> Answer {
    let mut answer = [0; 3];
    // SAFETY: as in `prune`
    unsafe { simmerroof_list_plan(file.as_ptr(), file.len(), out.as_mut_ptr(), out.len(), &mut answer) }
    answer
}

unsafe extern "C" {
    fn simmerroof_join_keys(
        predicate: *const u8,
        predicate_len: usize,
        out: *mut u8,
        out_len: usize,
        answer: *mut Answer,
    );
    fn simmerroof_without_keys(
        predicate: *const u8,
        predicate_len: usize,
        keys: *const u8,
        keys_len: usize,
        out: *mut u8,
        out_len: usize,
        answer: *mut Answer,
    );
}

pub fn join_keys(predicate: &[u8], out: &mut [u8]) -> Answer {
    let mut answer = [0; 3];
    // SAFETY: as in `prune`
    unsafe { simmerroof_join_keys(predicate.as_ptr(), predicate.len(), out.as_mut_ptr(), out.len(), &mut answer) }
    answer
}

pub fn without_keys(predicate: &[u8], keys: &[u8], out: &mut [u8]) -> Answer {
    let mut answer = [0; 3];
    let (start, length) = (out.as_mut_ptr(), out.len());
    // SAFETY: as in `prune`
    unsafe {
        simmerroof_without_keys(
            predicate.as_ptr(),
            predicate.len(),
            keys.as_ptr(),
            keys.len(),
            start,
            length,
            &mut answer,
        )
    }
    answer
}

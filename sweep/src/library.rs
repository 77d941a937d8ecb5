//! The library's jobs, through its C interface; and for tests alone the two ways to a kernel's word, and sixteen kernels side by side.

/// The outcome of a job without a word or a penalty.
#[repr(C)]
#[derive(Clone, Copy, Debug, PartialEq, Eq)]
pub struct Outcome {
    pub number: u32,
    pub place: usize,
}

/// The outcome of a job with a word.
#[repr(C)]
#[derive(Clone, Copy, Debug, PartialEq, Eq)]
pub struct WordOutcome {
    pub number: u32,
    pub place: usize,
    pub word: u16,
}

/// The outcome of list decode.
#[repr(C)]
#[derive(Clone, Copy, Debug, PartialEq, Eq)]
pub struct PenaltyOutcome {
    pub number: u32,
    pub place: usize,
    pub penalty: u32,
}

/// The plan of a frame: how many layers it has, and the kernel of each, innermost first.
#[repr(C)]
#[derive(Clone, Copy, Debug, PartialEq, Eq)]
pub struct Plan {
    pub layers: u8,
    pub kernels: [u8; 3],
}

extern "C" {
    fn nospridda_kernel_encode(kernel: u8, symbols: u16) -> WordOutcome;
    fn nospridda_kernel_undo(kernel: u8, word: u16) -> WordOutcome;
    fn nospridda_kernel_follow(
        kernel: u8,
        values: *const i32,
        values_length: usize,
        symbols: u16,
        scores: *mut i32,
        scores_length: usize,
    ) -> Outcome;
    fn nospridda_kernel_follow_hadamard(
        kernel: u8,
        values: *const i32,
        values_length: usize,
        symbols: u16,
        scores: *mut i32,
        scores_length: usize,
    ) -> Outcome;
    fn nospridda_frame_encode(
        plan: Plan,
        mask: *const u8,
        mask_length: usize,
        payload: *const u8,
        payload_length: usize,
        word: *mut u8,
        word_length: usize,
    ) -> Outcome;
    fn nospridda_frame_undo(
        plan: Plan,
        mask: *const u8,
        mask_length: usize,
        word: *const u8,
        word_length: usize,
        payload: *mut u8,
        payload_length: usize,
    ) -> Outcome;
    fn nospridda_frame_follow(
        plan: Plan,
        values: *const i8,
        values_length: usize,
        symbols: *const u8,
        symbols_length: usize,
        scores: *mut i32,
        scores_length: usize,
        penalties: *mut u32,
        penalties_length: usize,
    ) -> Outcome;
    fn nospridda_frame_decode(
        plan: Plan,
        values: *const i8,
        values_length: usize,
        mask: *const u8,
        mask_length: usize,
        scores: *mut i32,
        scores_length: usize,
        penalties: *mut u32,
        penalties_length: usize,
        payload: *mut u8,
        payload_length: usize,
    ) -> Outcome;
    fn nospridda_list_decode(
        plan: Plan,
        list: usize,
        values: *const i8,
        values_length: usize,
        mask: *const u8,
        mask_length: usize,
        scratch: *mut u8,
        scratch_length: usize,
        payload: *mut u8,
        payload_length: usize,
    ) -> PenaltyOutcome;
    fn nospridda_part_length(
        plan: Plan,
        mask: *const u8,
        mask_length: usize,
        length: usize,
    ) -> usize;
    fn nospridda_information_mask(p: usize, mask: *mut u8, mask_length: usize) -> Outcome;
    fn nospridda_values_from_marks(
        scale: f32,
        amplitudes: *const f32,
        amplitudes_length: usize,
        blanked: *const u8,
        blanked_length: usize,
        values: *mut i8,
        values_length: usize,
    ) -> Outcome;
    fn nospridda_test_word_by_rows(kernel: u8, symbols: u16) -> u16;
    fn nospridda_test_word_by_bits(kernel: u8, symbols: u16) -> u16;
    fn nospridda_test_side_follow(
        kernel: u8,
        values: *const i16,
        values_length: usize,
        planes: *const u16,
        planes_length: usize,
        scores: *mut i32,
        scores_length: usize,
    ) -> bool;
}

pub fn kernel_encode(kernel: u8, symbols: u16) -> WordOutcome {
    // Safe for every input: the job takes numbers only.
    unsafe { nospridda_kernel_encode(kernel, symbols) }
}

pub fn kernel_undo(kernel: u8, word: u16) -> WordOutcome {
    // Safe for every input: the job takes numbers only.
    unsafe { nospridda_kernel_undo(kernel, word) }
}

pub fn kernel_follow(kernel: u8, values: &[i32], symbols: u16, scores: &mut [i32]) -> Outcome {
    // Safe for every input: each buffer goes with its length, and a `&mut` overlaps no other.
    unsafe {
        nospridda_kernel_follow(
            kernel,
            values.as_ptr(),
            values.len(),
            symbols,
            scores.as_mut_ptr(),
            scores.len(),
        )
    }
}

pub fn kernel_follow_hadamard(
    kernel: u8,
    values: &[i32],
    symbols: u16,
    scores: &mut [i32],
) -> Outcome {
    // Safe for every input: each buffer goes with its length, and a `&mut` overlaps no other.
    unsafe {
        nospridda_kernel_follow_hadamard(
            kernel,
            values.as_ptr(),
            values.len(),
            symbols,
            scores.as_mut_ptr(),
            scores.len(),
        )
    }
}

pub fn frame_encode(plan: Plan, mask: &[u8], payload: &[u8], word: &mut [u8]) -> Outcome {
    // Safe for every input, as with kernel follow.
    unsafe {
        nospridda_frame_encode(
            plan,
            mask.as_ptr(),
            mask.len(),
            payload.as_ptr(),
            payload.len(),
            word.as_mut_ptr(),
            word.len(),
        )
    }
}

pub fn frame_undo(plan: Plan, mask: &[u8], word: &[u8], payload: &mut [u8]) -> Outcome {
    // Safe for every input, as with kernel follow.
    unsafe {
        nospridda_frame_undo(
            plan,
            mask.as_ptr(),
            mask.len(),
            word.as_ptr(),
            word.len(),
            payload.as_mut_ptr(),
            payload.len(),
        )
    }
}

pub fn part_length(plan: Plan, mask: &[u8], length: usize) -> usize {
    // Safe for every input, as with kernel follow.
    unsafe { nospridda_part_length(plan, mask.as_ptr(), mask.len(), length) }
}

pub fn information_mask(p: usize, mask: &mut [u8]) -> Outcome {
    // Safe for every input, as with kernel follow.
    unsafe { nospridda_information_mask(p, mask.as_mut_ptr(), mask.len()) }
}

pub fn frame_follow(
    plan: Plan,
    values: &[i8],
    symbols: &[u8],
    scores: &mut [i32],
    penalties: &mut [u32],
) -> Outcome {
    // Safe for every input, as with kernel follow.
    unsafe {
        nospridda_frame_follow(
            plan,
            values.as_ptr(),
            values.len(),
            symbols.as_ptr(),
            symbols.len(),
            scores.as_mut_ptr(),
            scores.len(),
            penalties.as_mut_ptr(),
            penalties.len(),
        )
    }
}

pub fn frame_decode(
    plan: Plan,
    values: &[i8],
    mask: &[u8],
    scores: &mut [i32],
    penalties: &mut [u32],
    payload: &mut [u8],
) -> Outcome {
    // Safe for every input, as with kernel follow.
    unsafe {
        nospridda_frame_decode(
            plan,
            values.as_ptr(),
            values.len(),
            mask.as_ptr(),
            mask.len(),
            scores.as_mut_ptr(),
            scores.len(),
            penalties.as_mut_ptr(),
            penalties.len(),
            payload.as_mut_ptr(),
            payload.len(),
        )
    }
}

pub fn list_decode(
    plan: Plan,
    list: usize,
    values: &[i8],
    mask: &[u8],
    scratch: &mut [u8],
    payload: &mut [u8],
) -> PenaltyOutcome {
    // Safe for every input, as with kernel follow.
    unsafe {
        nospridda_list_decode(
            plan,
            list,
            values.as_ptr(),
            values.len(),
            mask.as_ptr(),
            mask.len(),
            scratch.as_mut_ptr(),
            scratch.len(),
            payload.as_mut_ptr(),
            payload.len(),
        )
    }
}

pub fn values_from_marks(
    scale: f32,
    amplitudes: &[f32],
    blanked: &[u8],
    values: &mut [i8],
) -> Outcome {
    // Safe for every input, as with kernel follow.
    unsafe {
        nospridda_values_from_marks(
            scale,
            amplitudes.as_ptr(),
            amplitudes.len(),
            blanked.as_ptr(),
            blanked.len(),
            values.as_mut_ptr(),
            values.len(),
        )
    }
}

/// The word of kernel encode, 0 where it is refused: of `libbitwise.a`, which has kernel encode once more, so that this way and
/// the next differ in the sum alone.
pub fn word_by_rows(kernel: u8, symbols: u16) -> u16 {
    // Safe for every input: it takes numbers only.
    unsafe { nospridda_test_word_by_rows(kernel, symbols) }
}

/// The same word, made bit by bit.
pub fn word_by_bits(kernel: u8, symbols: u16) -> u16 {
    // Safe for every input: it takes numbers only.
    unsafe { nospridda_test_word_by_bits(kernel, symbols) }
}

/// Sixteen kernels followed side by side, of `libside_follow.a`; whether the request was accepted.
pub fn side_follow(kernel: u8, values: &[i16], planes: &[u16], scores: &mut [i32]) -> bool {
    // Safe for every input, as with kernel follow.
    unsafe {
        nospridda_test_side_follow(
            kernel,
            values.as_ptr(),
            values.len(),
            planes.as_ptr(),
            planes.len(),
            scores.as_mut_ptr(),
            scores.len(),
        )
    }
}

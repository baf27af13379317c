//! The functions of the static library, as `include/fejogbu.h` has them. A slice is a pointer and a number of items.
extern "C" {
    pub fn fejogbu_replay(
        bytes: *const u8,
        bytes_size: usize,
        left: *mut u16,
        left_size: usize,
        right: *mut u16,
        right_size: usize,
        answer: *mut u64,
        answer_size: usize,
    ) -> u64;
    pub fn fejogbu_run(
        declarations: *const u16,
        declarations_size: usize,
        left: *mut u16,
        left_size: usize,
        n: usize,
        right: *mut u16,
        right_size: usize,
        m: usize,
        steps: *const u16,
        steps_size: usize,
        count: usize,
        answer: *mut u64,
        answer_size: usize,
    ) -> u64;
    pub fn fejogbu_step(
        declarations: *const u16,
        declarations_size: usize,
        term: *mut u16,
        term_size: usize,
        n: usize,
        rule: u16,
        place: u16,
        i: u16,
        j: u16,
        answer: *mut u64,
        answer_size: usize,
    ) -> u64;
    pub fn fejogbu_preview(
        declarations: *const u16,
        declarations_size: usize,
        term: *const u16,
        term_size: usize,
        n: usize,
        rule: u16,
        place: u16,
        i: u16,
        j: u16,
        answer: *mut u64,
        answer_size: usize,
        rows: *mut u16,
        rows_size: usize,
        columns: *mut u16,
        columns_size: usize,
    ) -> u64;
    pub fn fejogbu_typing(
        declarations: *const u16,
        declarations_size: usize,
        term: *const u16,
        term_size: usize,
        n: usize,
        answer: *mut u64,
        answer_size: usize,
        rows: *mut u16,
        rows_size: usize,
        columns: *mut u16,
        columns_size: usize,
    ) -> u64;
    pub fn fejogbu_part(words: *const u16, words_size: usize, at: usize, depth: *mut usize)
        -> usize;
    pub fn fejogbu_start_declarations(
        declarations: *mut u16,
        declarations_size: usize,
        types: usize,
    ) -> u64;
    pub fn fejogbu_put_basis(
        declarations: *mut u16,
        declarations_size: usize,
        index: *const u16,
        index_size: usize,
    ) -> u64;
    pub fn fejogbu_put_variable(
        declarations: *mut u16,
        declarations_size: usize,
        kind: u16,
        first: *const u16,
        first_size: usize,
        second: *const u16,
        second_size: usize,
    ) -> u64;
    pub fn fejogbu_put_step(
        steps: *mut u16,
        steps_size: usize,
        k: usize,
        side: u16,
        rule: u16,
        place: u16,
        i: u16,
        j: u16,
    ) -> u64;
}

#[cfg(test)]
mod tests {
    use super::*;

    /// What the library returns for an accepted file in slices of these sizes.
    fn replay(left: &mut [u16], right: &mut [u16], answer: &mut [u64]) -> u64 {
        let text = b"types=0\nleft=5\nright=5\nend=0\n";
        unsafe {
            fejogbu_replay(
                text.as_ptr(),
                text.len(),
                left.as_mut_ptr(),
                left.len(),
                right.as_mut_ptr(),
                right.len(),
                answer.as_mut_ptr(),
                answer.len(),
            )
        }
    }

    /// An answer's slice of another size is refused, and nothing is touched: not the answer, not the work slices.
    #[test]
    fn a_slice_of_another_size_is_refused() {
        let mut left = [7; 4096];
        let mut right = [8; 4096];
        for size in [0, 1, 5, 7, 12] {
            let mut answer = vec![9; size];
            assert_eq!(replay(&mut left, &mut right, &mut answer), 1);
            assert!(answer.iter().all(|&n| n == 9));
            assert_eq!((left, right), ([7; 4096], [8; 4096]));
        }
    }

    /// A work slice of another size is code 1, and it is untouched.
    #[test]
    fn a_work_slice_of_another_size_is_code_1() {
        let mut left = [7; 4095];
        let mut right = [8; 4096];
        let mut answer = [9; 6];
        assert_eq!(replay(&mut left, &mut right, &mut answer), 0);
        assert_eq!(answer, [1, 0, 0, 0, 0, 0]);
        assert_eq!((left, right), ([7; 4095], [8; 4096]));
    }

    /// A preview in slices of these sizes: what is returned, and the nine numbers.
    fn preview(term: &[u16], rows: &mut [u16]) -> (u64, [u64; 9]) {
        let declared = [0u16; 6179];
        let mut answer = [9; 9];
        let mut columns = [9; 63];
        let returned = unsafe {
            fejogbu_preview(
                declared.as_ptr(),
                declared.len(),
                term.as_ptr(),
                term.len(),
                2,
                61,
                0,
                0,
                0,
                answer.as_mut_ptr(),
                answer.len(),
                rows.as_mut_ptr(),
                rows.len(),
                columns.as_mut_ptr(),
                columns.len(),
            )
        };
        (returned, answer)
    }

    /// A preview of a slice of another size is code 1; slices for its answer of another size are refused, and nothing is touched.
    #[test]
    fn a_preview_in_slices_of_other_sizes() {
        for size in [0, 2, 4095, 4097] {
            let mut rows = [9; 63];
            let (returned, answer) = preview(&vec![2304; size], &mut rows);
            assert_eq!((returned, answer), (0, [1, 0, 0, 0, 0, 0, 0, 0, 0]));
            assert_eq!(rows, [0; 63]);
        }
        let mut rows = [9; 62];
        assert_eq!(preview(&[2304; 4096], &mut rows), (1, [9; 9]));
        assert_eq!(rows, [9; 62]);
    }

    /// What is not put is told by the number of the code: 1 the calling program's doing, 6 one too many, 7 a bad declaration.
    #[test]
    fn a_declaration_is_put_or_the_code_says_why() {
        let index = [256u16];
        let mut words = [5u16; 6179];
        let at = words.as_mut_ptr();
        let basis = |size| unsafe { fejogbu_put_basis(at, size, index.as_ptr(), 1) };
        let start = |size, types| unsafe { fejogbu_start_declarations(at, size, types) };
        assert_eq!([start(6178, 1), basis(6178)], [1, 1]);
        assert_eq!([start(6179, 33), start(6179, 0), basis(6179)], [7, 0, 7]);
        assert_eq!(start(6179, 1), 0);
        let put: Vec<u64> = (0..33).map(|_| basis(6179)).collect();
        assert_eq!((&put[..32], put[32]), (&[0; 32][..], 6));
        assert_eq!(words[..3], [1, 32, 0]);
    }

    /// A side that is neither 1 nor 2, a step past the slice and a step past the thousandth are not put.
    #[test]
    fn a_step_is_put_or_nothing_is_changed() {
        let mut steps = [5u16; 16];
        let mut put = |k, side| unsafe {
            (
                fejogbu_put_step(steps.as_mut_ptr(), 16, k, side, 71, 1, 2, 3),
                steps,
            )
        };
        assert_eq!(put(0, 0), (0, [5; 16]));
        assert_eq!(put(0, 3), (0, [5; 16]));
        assert_eq!(put(2, 1), (0, [5; 16]));
        assert_eq!(put(1000, 1), (0, [5; 16]));
        assert_eq!(
            put(1, 2),
            (1, [5, 5, 5, 5, 5, 5, 5, 5, 2, 71, 1, 2, 3, 0, 0, 0])
        );
    }
}

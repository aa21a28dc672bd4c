//! A failing input made short: parts are left out while it still fails.

pub fn shrink<T: Clone>(input: &[T], tries: usize, fails: &mut dyn FnMut(&[T]) -> bool) -> Vec<T> {
    let mut input = input.to_vec();
    let mut left = tries;
    let mut part = (input.len() + 1) / 2;
    while part > 0 && left > 0 {
        if !drop_parts(&mut input, part, &mut left, fails) {
            part /= 2;
        }
    }
    input
}

/// One pass that leaves out parts of one size, from the end; tells whether any went.
fn drop_parts<T: Clone>(
    input: &mut Vec<T>,
    part: usize,
    left: &mut usize,
    fails: &mut dyn FnMut(&[T]) -> bool,
) -> bool {
    let before = input.len();
    let mut end = input.len();
    while end > 0 && *left > 0 {
        let start = end.saturating_sub(part);
        let rest: Vec<T> = [&input[..start], &input[end..]].concat();
        *left -= 1;
        if fails(&rest) {
            *input = rest;
        }
        end = start;
    }
    input.len() < before
}

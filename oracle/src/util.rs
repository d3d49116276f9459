// zerwydd {
// The source folder does not hold util.rs: the two functions that the core calls.

pub(crate) fn extend(base: &mut Vec<String>, slice: &[String]) {
    base.extend_from_slice(slice);
}

pub(crate) fn copy_on_push_vec<T: Clone>(input: &[T], el: T) -> Vec<T> {
    let mut new_vec = Vec::with_capacity(input.len() + 1);
    new_vec.extend_from_slice(input);
    new_vec.push(el);
    new_vec
}
// zerwydd }

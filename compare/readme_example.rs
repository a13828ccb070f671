//! Builds the park file of three nodes (case A, 81 bytes) and runs rounds until it is quiet.
//! Prints: rounds 11

#[rustfmt::skip]
extern "C" {
    fn chandvreksh_write(nodes: u16, root: u16, links: *const u16, links_len: usize,
        group: *const u8, group_len: usize, distances: *const u32, distances_len: usize,
        parents: *const u16, parents_len: usize, marks: *const u8, marks_len: usize,
        area: *mut u8, area_len: usize, place: usize, answer: *mut u64);
    fn chandvreksh_run(file: *const u8, file_len: usize, count: u32,
        area: *mut u8, area_len: usize, place: usize, answer: *mut u64);
}

#[rustfmt::skip]
fn main() {
    let links = [1, 2, 10, 2, 3, 1]; // lower node, higher node, cost in cost units
    let mut group = [0; 32];
    group[0] = 1 << (3 - 1); // node 3 is the only member
    let (distances, parents, marks) = ([0; 3], [0; 3], [0; 3]);
    let (mut file, mut settled, mut answer) = ([0; 81], [0; 81], [0; 8]);
    // SAFETY: each pointer leads to as many numbers as the length behind it says.
    unsafe {
        chandvreksh_write(3, 1, links.as_ptr(), 6, group.as_ptr(), 32, distances.as_ptr(), 3,
            parents.as_ptr(), 3, marks.as_ptr(), 3, file.as_mut_ptr(), 81, 0, answer.as_mut_ptr());
        assert_eq!(answer[0], 0, "refused");
        chandvreksh_run(file.as_ptr(), 81, 16_777_217, settled.as_mut_ptr(), 81, 0, answer.as_mut_ptr());
    }
    assert_eq!(answer[0], 0, "refused");
    println!("rounds {}", answer[2]);
}

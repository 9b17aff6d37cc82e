//! The port's exports, as include/slot_draw.h declares them; a slice is a pointer and a length.
#[link(name = "slot_draw", kind = "static")]
unsafe extern "C" {
    fn slot_draw_tree_new(store: *mut u64, cells: usize, weights: *const u64, n: usize, answer: *mut [u64; 3]);
    fn slot_draw_tree_get(store: *const u64, cells: usize, count: usize, index: usize, answer: *mut [u64; 3]);
    fn slot_draw_tree_pop(store: *mut u64, cells: usize, count: usize, answer: *mut [u64; 3]);
    fn slot_draw_tree_push(store: *mut u64, cells: usize, count: usize, weight: u64, answer: *mut [u64; 3]);
    fn slot_draw_tree_update(
        store: *mut u64,
        cells: usize,
        count: usize,
        index: usize,
        weight: u64,
        answer: *mut [u64; 3],
    );
    fn slot_draw_tree_walk(store: *const u64, cells: usize, count: usize, target: u64, answer: *mut [u64; 3]);
    fn slot_draw_alias_new(
        weights: *const u64,
        n: usize,
        odds: *mut u64,
        odds_n: usize,
        links: *mut u32,
        links_n: usize,
        answer: *mut [u64; 3],
    );
    fn slot_draw_alias_draw(
        odds: *const u64,
        odds_n: usize,
        links: *const u32,
        links_n: usize,
        sum: u64,
        pool: *const u64,
        words: usize,
        answer: *mut [u64; 3],
    );
    fn slot_draw_alias_weights(
        odds: *const u64,
        odds_n: usize,
        links: *const u32,
        links_n: usize,
        sum: u64,
        output: *mut u64,
        output_n: usize,
        answer: *mut [u64; 3],
    );
    fn slot_draw_binomial_new(n: u64, p: f64, setup: *mut [u64; 7]);
    fn slot_draw_binomial_draw(setup: *const [u64; 7], pool: *const u64, words: usize, answer: *mut [u64; 3]);
    fn slot_draw_ziggurat_round(
        edges: *const f64,
        edges_n: usize,
        densities: *const f64,
        densities_n: usize,
        symmetric: bool,
        pool: *const u64,
        words: usize,
        answer: *mut [u64; 5],
    );
}

/// The answer's value; the calls timed here are not refused.
fn value(answer: [u64; 3]) -> u64 {
    assert_eq!(answer[0], 0);
    answer[1]
}

pub fn tree_new(store: &mut [u64], weights: &[u64]) -> u64 {
    let mut answer = [0; 3];
    unsafe { slot_draw_tree_new(store.as_mut_ptr(), store.len(), weights.as_ptr(), weights.len(), &mut answer) };
    value(answer)
}

pub fn tree_get(store: &[u64], index: usize) -> u64 {
    let mut answer = [0; 3];
    unsafe { slot_draw_tree_get(store.as_ptr(), store.len(), store.len(), index, &mut answer) };
    value(answer)
}

pub fn tree_pop(store: &mut [u64], count: usize) -> u64 {
    let mut answer = [0; 3];
    unsafe { slot_draw_tree_pop(store.as_mut_ptr(), store.len(), count, &mut answer) };
    value(answer)
}

pub fn tree_push(store: &mut [u64], count: usize, weight: u64) -> u64 {
    let mut answer = [0; 3];
    unsafe { slot_draw_tree_push(store.as_mut_ptr(), store.len(), count, weight, &mut answer) };
    value(answer)
}

pub fn tree_update(store: &mut [u64], index: usize, weight: u64) -> u64 {
    let mut answer = [0; 3];
    unsafe { slot_draw_tree_update(store.as_mut_ptr(), store.len(), store.len(), index, weight, &mut answer) };
    value(answer)
}

pub fn tree_walk(store: &[u64], target: u64) -> u64 {
    let mut answer = [0; 3];
    unsafe { slot_draw_tree_walk(store.as_ptr(), store.len(), store.len(), target, &mut answer) };
    value(answer)
}

pub fn alias_new(weights: &[u64], odds: &mut [u64], links: &mut [u32]) -> u64 {
    let mut answer = [0; 3];
    let (n, m, l) = (weights.len(), odds.len(), links.len());
    unsafe { slot_draw_alias_new(weights.as_ptr(), n, odds.as_mut_ptr(), m, links.as_mut_ptr(), l, &mut answer) };
    value(answer)
}

pub fn alias_draw(odds: &[u64], links: &[u32], sum: u64, pool: &[u64]) -> u64 {
    let mut answer = [0; 3];
    let (n, l) = (odds.len(), links.len());
    unsafe { slot_draw_alias_draw(odds.as_ptr(), n, links.as_ptr(), l, sum, pool.as_ptr(), pool.len(), &mut answer) };
    value(answer)
}

pub fn alias_weights(odds: &[u64], links: &[u32], sum: u64, output: &mut [u64]) -> u64 {
    let mut answer = [0; 3];
    let (n, l, o) = (odds.len(), links.len(), output.len());
    unsafe { slot_draw_alias_weights(odds.as_ptr(), n, links.as_ptr(), l, sum, output.as_mut_ptr(), o, &mut answer) };
    value(answer)
}

pub fn binomial_new(n: u64, p: f64) -> [u64; 7] {
    let mut setup = [0; 7];
    unsafe { slot_draw_binomial_new(n, p, &mut setup) };
    assert_eq!(setup[0], 0);
    setup
}

pub fn binomial_draw(setup: &[u64; 7], pool: &[u64]) -> u64 {
    let mut answer = [0; 3];
    unsafe { slot_draw_binomial_draw(setup, pool.as_ptr(), pool.len(), &mut answer) };
    value(answer)
}

pub fn ziggurat_round(edges: &[f64; 257], densities: &[f64; 257], pool: &[u64; 2]) -> u64 {
    let mut answer = [0; 5];
    unsafe {
        slot_draw_ziggurat_round(edges.as_ptr(), 257, densities.as_ptr(), 257, true, pool.as_ptr(), 2, &mut answer)
    };
    assert_eq!(answer[0], 0);
    answer[2]
}

//! The functions of the static library, as `include/slot_draw.h` declares them. Each takes any numbers and any content;
//! what it asks is what every Rust slice and array reference is: a pointer that is not null and aligned, with as many
//! elements as its length says, and no other reference to what is lent as mutable.

extern "C" {
    pub fn slot_draw_tree_new(
        store: *mut u64,
        store_length: usize,
        weights: *const u64,
        weights_length: usize,
        answer: *mut [u64; 3],
    );
    pub fn slot_draw_tree_is_valid(
        store: *const u64,
        store_length: usize,
        count: usize,
        answer: *mut [u64; 3],
    );
    pub fn slot_draw_tree_get(
        store: *const u64,
        store_length: usize,
        count: usize,
        index: usize,
        answer: *mut [u64; 3],
    );
    pub fn slot_draw_tree_pop(
        store: *mut u64,
        store_length: usize,
        count: usize,
        answer: *mut [u64; 3],
    );
    pub fn slot_draw_tree_push(
        store: *mut u64,
        store_length: usize,
        count: usize,
        weight: u64,
        answer: *mut [u64; 3],
    );
    pub fn slot_draw_tree_update(
        store: *mut u64,
        store_length: usize,
        count: usize,
        index: usize,
        weight: u64,
        answer: *mut [u64; 3],
    );
    pub fn slot_draw_tree_walk(
        store: *const u64,
        store_length: usize,
        count: usize,
        target: u64,
        answer: *mut [u64; 3],
    );
    pub fn slot_draw_tree_draw(
        store: *const u64,
        store_length: usize,
        count: usize,
        pool: *const u64,
        pool_length: usize,
        answer: *mut [u64; 3],
    );
    pub fn slot_draw_tree_is_sound(
        store: *const u64,
        store_length: usize,
        count: usize,
        answer: *mut [u64; 3],
    );
    pub fn slot_draw_alias_new(
        weights: *const u64,
        weights_length: usize,
        odds: *mut u64,
        odds_length: usize,
        links: *mut u32,
        links_length: usize,
        answer: *mut [u64; 3],
    );
    pub fn slot_draw_alias_draw(
        odds: *const u64,
        odds_length: usize,
        links: *const u32,
        links_length: usize,
        sum: u64,
        pool: *const u64,
        pool_length: usize,
        answer: *mut [u64; 3],
    );
    pub fn slot_draw_alias_check(
        weights: *const u64,
        weights_length: usize,
        odds: *const u64,
        odds_length: usize,
        links: *const u32,
        links_length: usize,
        work: *mut u64,
        work_length: usize,
        answer: *mut [u64; 3],
    );
    pub fn slot_draw_alias_weights(
        odds: *const u64,
        odds_length: usize,
        links: *const u32,
        links_length: usize,
        sum: u64,
        output: *mut u64,
        output_length: usize,
        answer: *mut [u64; 3],
    );
    pub fn slot_draw_number_below(
        pool: *const u64,
        pool_length: usize,
        total: u64,
        answer: *mut [u64; 3],
    );
    pub fn slot_draw_unit(word: u64) -> f64;
    pub fn slot_draw_symmetric_u(word: u64) -> f64;
    pub fn slot_draw_one_sided_u(word: u64) -> f64;
    pub fn slot_draw_binomial_new(n: u64, p: f64, setup: *mut [u64; 7]);
    pub fn slot_draw_binomial_draw(
        setup: *const [u64; 7],
        pool: *const u64,
        pool_length: usize,
        answer: *mut [u64; 3],
    );
    pub fn slot_draw_ziggurat_round(
        edges: *const f64,
        edges_length: usize,
        densities: *const f64,
        densities_length: usize,
        symmetric: bool,
        pool: *const u64,
        pool_length: usize,
        answer: *mut [u64; 5],
    );
}

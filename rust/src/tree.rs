//! The tree of weights.
// SAFETY of each `unsafe` here: the pointers and lengths are those of live slices, what is lent as mutable is borrowed
// mutably, and the answer is a local array. The functions ask nothing else.

use crate::{answered, drawn, ffi, Drawn, Error};

/// A tree of weights in a lent store of subtotals, eight bytes a slot. A heavier slot is drawn more often.
///
/// ```
/// use slot_draw::{Error, Tree};
///
/// let mut store = [0; 4];
/// let mut tree = Tree::new(&mut store, &[1, 2, 3])?;
/// tree.push(4)?;
/// assert_eq!(tree.get(3), Ok(4));
/// assert_eq!(tree.walk(9), Ok(0)); // each slot answers as many targets below the total as its weight
/// assert_eq!(tree.push(5), Err(Error::Full));
/// assert_eq!(tree.pop(), Ok(4));
/// # Ok::<(), Error>(())
/// ```
#[derive(Debug)]
pub struct Tree<'a> {
    store: &'a mut [u64],
    count: usize,
}

impl<'a> Tree<'a> {
    /// Makes a tree of the weights in the store, whatever that held. Refuses, in order: [`Error::Full`],
    /// [`Error::Overflow`].
    pub fn new(store: &'a mut [u64], weights: &[u64]) -> Result<Self, Error> {
        let [count, _] = answered(|answer| unsafe {
            ffi::slot_draw_tree_new(
                store.as_mut_ptr(),
                store.len(),
                weights.as_ptr(),
                weights.len(),
                answer,
            )
        })?;
        Ok(Tree {
            store,
            count: count as usize,
        })
    }

    /// The tree that a store holds, whoever wrote it. Any store and any count are taken: a call that finds the count bad
    /// or a cell damaged refuses, and [`is_sound`](Self::is_sound) looks at all cells.
    pub fn from_parts(store: &'a mut [u64], count: usize) -> Self {
        Tree { store, count }
    }

    /// The store and the count.
    pub fn into_parts(self) -> (&'a mut [u64], usize) {
        (self.store, self.count)
    }

    /// The count of the slots.
    pub fn len(&self) -> usize {
        self.count
    }

    /// Whether there is no slot.
    pub fn is_empty(&self) -> bool {
        self.count == 0
    }

    /// Whether the tree can be drawn from: it has a slot, and the total is above 0.
    pub fn is_valid(&self) -> Result<bool, Error> {
        let [yes, _] = answered(|answer| unsafe {
            ffi::slot_draw_tree_is_valid(self.store.as_ptr(), self.store.len(), self.count, answer)
        })?;
        Ok(yes == 1)
    }

    /// The weight of a slot. Refuses, in order: [`Error::BadCount`], [`Error::BadIndex`], [`Error::Damaged`].
    pub fn get(&self, index: usize) -> Result<u64, Error> {
        let [weight, _] = answered(|answer| unsafe {
            ffi::slot_draw_tree_get(
                self.store.as_ptr(),
                self.store.len(),
                self.count,
                index,
                answer,
            )
        })?;
        Ok(weight)
    }

    /// Removes the last slot and answers its weight. Refuses, in order: [`Error::BadCount`], [`Error::Empty`],
    /// [`Error::Damaged`].
    pub fn pop(&mut self) -> Result<u64, Error> {
        let [weight, count] = answered(|answer| unsafe {
            ffi::slot_draw_tree_pop(
                self.store.as_mut_ptr(),
                self.store.len(),
                self.count,
                answer,
            )
        })?;
        self.count = count as usize;
        Ok(weight)
    }

    /// Appends a slot. Refuses, in order: [`Error::BadCount`], [`Error::Full`], [`Error::Damaged`], [`Error::Overflow`].
    pub fn push(&mut self, weight: u64) -> Result<(), Error> {
        let [count, _] = answered(|answer| unsafe {
            ffi::slot_draw_tree_push(
                self.store.as_mut_ptr(),
                self.store.len(),
                self.count,
                weight,
                answer,
            )
        })?;
        self.count = count as usize;
        Ok(())
    }

    /// Changes the weight of a slot. Refuses, in order: [`Error::BadCount`], [`Error::BadIndex`], [`Error::Damaged`],
    /// [`Error::Overflow`].
    pub fn update(&mut self, index: usize, weight: u64) -> Result<(), Error> {
        answered(|answer| unsafe {
            ffi::slot_draw_tree_update(
                self.store.as_mut_ptr(),
                self.store.len(),
                self.count,
                index,
                weight,
                answer,
            )
        })?;
        Ok(())
    }

    /// The slot of a target below the total. Refuses, in order: [`Error::BadCount`], [`Error::InsufficientNonZero`],
    /// [`Error::BadTarget`], [`Error::Damaged`].
    pub fn walk(&self, target: u64) -> Result<usize, Error> {
        let [index, _] = answered(|answer| unsafe {
            ffi::slot_draw_tree_walk(
                self.store.as_ptr(),
                self.store.len(),
                self.count,
                target,
                answer,
            )
        })?;
        Ok(index as usize)
    }

    /// The slot that a pool of words draws. Refuses, in order: [`Error::BadCount`], [`Error::InsufficientNonZero`],
    /// [`Error::OutOfWords`], [`Error::Damaged`].
    pub fn draw(&self, pool: &[u64]) -> Result<Drawn, Error> {
        answered(|answer| unsafe {
            ffi::slot_draw_tree_draw(
                self.store.as_ptr(),
                self.store.len(),
                self.count,
                pool.as_ptr(),
                pool.len(),
                answer,
            )
        })
        .map(drawn)
    }

    /// Whether no cell below the count is damaged. Refuses: [`Error::BadCount`].
    pub fn is_sound(&self) -> Result<bool, Error> {
        let [yes, _] = answered(|answer| unsafe {
            ffi::slot_draw_tree_is_sound(self.store.as_ptr(), self.store.len(), self.count, answer)
        })?;
        Ok(yes == 1)
    }
}

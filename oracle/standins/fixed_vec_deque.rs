//! Stand-in for the crate fixed_vec_deque 0.1: a ring in an array of fixed size.
//! The published crate overwrites at a push on a full ring. The PPU never does that
//! (it pushes 8 only on 8 or fewer of 16, and never more than 8 in all of 8),
//! so here such a push stops the program.

use std::ops::{Index, IndexMut};

pub struct FixedVecDeque<A> {
    items: A,
    head: usize,
    len: usize,
}

impl<T: Copy + Default, const N: usize> FixedVecDeque<[T; N]> {
    pub fn new() -> Self {
        Self {
            items: [T::default(); N],
            head: 0,
            len: 0,
        }
    }

    /// Takes one more place at the back, to be written by the caller.
    pub fn push_back(&mut self) -> &mut T {
        assert!(self.len < N, "push on a full queue");
        self.len += 1;
        let place = self.place(self.len - 1);
        &mut self.items[place]
    }

    pub fn pop_front(&mut self) -> Option<&mut T> {
        if self.len == 0 {
            return None;
        }
        let place = self.head;
        self.head = (self.head + 1) % N;
        self.len -= 1;
        Some(&mut self.items[place])
    }

    pub fn len(&self) -> usize {
        self.len
    }

    pub fn clear(&mut self) {
        self.head = 0;
        self.len = 0;
    }

    /// Front to back.
    pub fn iter(&self) -> impl Iterator<Item = &T> + '_ {
        (0..self.len).map(move |i| &self.items[self.place(i)])
    }

    fn place(&self, i: usize) -> usize {
        (self.head + i) % N
    }
}

impl<T: Copy + Default, const N: usize> Index<usize> for FixedVecDeque<[T; N]> {
    type Output = T;

    fn index(&self, i: usize) -> &T {
        assert!(i < self.len);
        &self.items[self.place(i)]
    }
}

impl<T: Copy + Default, const N: usize> IndexMut<usize> for FixedVecDeque<[T; N]> {
    fn index_mut(&mut self, i: usize) -> &mut T {
        assert!(i < self.len);
        let place = self.place(i);
        &mut self.items[place]
    }
}

//! Stands for the crate volatile-register: cells of one word that record each access.

use std::cell::UnsafeCell;
use std::mem::transmute_copy;

fn address<T>(cell: &UnsafeCell<T>) -> usize {
    std::ptr::from_ref(cell) as usize
}

fn get<T: Copy>(cell: &UnsafeCell<T>) -> T {
    const { assert!(size_of::<T>() == 4) };
    let word = recorder::read(address(cell));
    // The registers are transparent over u32.
    unsafe { transmute_copy(&word) }
}

fn set<T: Copy>(cell: &UnsafeCell<T>, value: T) {
    const { assert!(size_of::<T>() == 4) };
    recorder::write(address(cell), unsafe { transmute_copy(&value) });
}

/// A register that is read and written.
#[repr(transparent)]
pub struct RW<T>(UnsafeCell<T>);

impl<T: Copy> RW<T> {
    pub fn read(&self) -> T {
        get(&self.0)
    }

    /// # Safety
    /// As the crate has it.
    pub unsafe fn write(&self, value: T) {
        set(&self.0, value)
    }

    /// # Safety
    /// As the crate has it.
    pub unsafe fn modify<F: FnOnce(T) -> T>(&self, f: F) {
        set(&self.0, f(get(&self.0)))
    }
}

/// A register that is only read.
#[repr(transparent)]
pub struct RO<T>(UnsafeCell<T>);

impl<T: Copy> RO<T> {
    pub fn read(&self) -> T {
        get(&self.0)
    }
}

/// A register that is only written.
#[repr(transparent)]
pub struct WO<T>(UnsafeCell<T>);

impl<T: Copy> WO<T> {
    /// # Safety
    /// As the crate has it.
    pub unsafe fn write(&self, value: T) {
        set(&self.0, value)
    }
}

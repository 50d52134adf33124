// The functions of the static library as C calls them, and what is lent to them. Nothing else here knows how memory is lent.
#![allow(dead_code)] // what only some of the benchmarks use
use lent::{Store, TABLE};

#[path = "../common/lent.rs"]
mod lent;

unsafe extern "C" {
    fn findavoreb_evaluate(
        list: *const u8, list_len: usize, sheet: *const u8, sheet_len: usize, store: *mut [u64; 4], rows: usize,
        desk: *mut u64, table: *mut u64, answer: *mut u64,
    ) -> u64;
    fn findavoreb_simplify(
        list: *const u8, list_len: usize, sheet: *const u8, sheet_len: usize, limit: u64, store: *mut [u64; 4],
        rows: usize, desk: *mut u64, table: *mut u64, out: *mut u8, out_len: usize, answer: *mut u64,
    ) -> u64;
    fn findavoreb_substitute(
        list: *const u8, list_len: usize, store: *mut [u64; 4], rows: usize, desk: *mut u64, table: *mut u64,
        out: *mut u8, out_len: usize, answer: *mut u64,
    ) -> u64;
    fn findavoreb_to_real(
        list: *const u8, list_len: usize, store: *mut [u64; 4], rows: usize, desk: *mut u64, table: *mut u64,
        answer: *mut u64,
    ) -> u64;
    fn findavoreb_compile(
        list: *const u8, list_len: usize, store: *mut [u64; 4], rows: usize, desk: *mut u64, table: *mut u64,
        out: *mut u8, out_len: usize, answer: *mut u64,
    ) -> u64;
    fn findavoreb_play(
        tape: *const u8, tape_len: usize, sheet: *const u8, sheet_len: usize, table: *mut u64, answer: *mut u64,
    ) -> u64;
}

pub type Answer = [u64; 6];

pub struct Work {
    store: Store,
    table: [u64; TABLE],
}

impl Work {
    pub fn new(room: usize) -> Work {
        Work { store: Store::new(room), table: [u64::MAX; TABLE] }
    }

    pub fn evaluate(&mut self, list: &[u8], sheet: &[u8], answer: &mut Answer) -> u64 {
        let (Store { rows, desk }, table) = (&mut self.store, &mut self.table);
        unsafe {
            findavoreb_evaluate(
                list.as_ptr(), list.len(), sheet.as_ptr(), sheet.len(), rows.as_mut_ptr(), rows.len(),
                desk.as_mut_ptr(), table.as_mut_ptr(), answer.as_mut_ptr(),
            )
        }
    }

    pub fn simplify(&mut self, list: &[u8], sheet: &[u8], limit: u64, out: &mut [u8], answer: &mut Answer) -> u64 {
        let (Store { rows, desk }, table) = (&mut self.store, &mut self.table);
        unsafe {
            findavoreb_simplify(
                list.as_ptr(), list.len(), sheet.as_ptr(), sheet.len(), limit, rows.as_mut_ptr(), rows.len(),
                desk.as_mut_ptr(), table.as_mut_ptr(), out.as_mut_ptr(), out.len(), answer.as_mut_ptr(),
            )
        }
    }

    pub fn substitute(&mut self, list: &[u8], out: &mut [u8], answer: &mut Answer) -> u64 {
        let (Store { rows, desk }, table) = (&mut self.store, &mut self.table);
        unsafe {
            findavoreb_substitute(
                list.as_ptr(), list.len(), rows.as_mut_ptr(), rows.len(), desk.as_mut_ptr(), table.as_mut_ptr(),
                out.as_mut_ptr(), out.len(), answer.as_mut_ptr(),
            )
        }
    }

    pub fn to_real(&mut self, list: &[u8], answer: &mut Answer) -> u64 {
        let (Store { rows, desk }, table) = (&mut self.store, &mut self.table);
        unsafe {
            findavoreb_to_real(
                list.as_ptr(), list.len(), rows.as_mut_ptr(), rows.len(), desk.as_mut_ptr(), table.as_mut_ptr(),
                answer.as_mut_ptr(),
            )
        }
    }

    pub fn compile(&mut self, list: &[u8], out: &mut [u8], answer: &mut Answer) -> u64 {
        let (Store { rows, desk }, table) = (&mut self.store, &mut self.table);
        unsafe {
            findavoreb_compile(
                list.as_ptr(), list.len(), rows.as_mut_ptr(), rows.len(), desk.as_mut_ptr(), table.as_mut_ptr(),
                out.as_mut_ptr(), out.len(), answer.as_mut_ptr(),
            )
        }
    }

    pub fn play(&mut self, tape: &[u8], sheet: &[u8], answer: &mut Answer) -> u64 {
        let table = self.table.as_mut_ptr();
        unsafe { findavoreb_play(tape.as_ptr(), tape.len(), sheet.as_ptr(), sheet.len(), table, answer.as_mut_ptr()) }
    }
}

//! The port, as a host calls it: the structs and functions of include/hirupango.h.

/// The numbers of a best: x, y, SAD, average, and how many reference samples lie outside the data.
pub(crate) const NUMBERS: usize = 5;

#[repr(C)]
#[derive(Clone, Copy)]
pub(crate) struct Sides {
    pub(crate) x: i32,
    pub(crate) y: i32,
}

#[repr(C)]
#[derive(Clone, Copy)]
pub(crate) struct Place {
    pub(crate) base: usize,
    pub(crate) pitch: i32,
    pub(crate) width: i32,
    pub(crate) height: i32,
    pub(crate) pel: i32,
}

#[repr(C)]
#[derive(Clone, Copy)]
pub(crate) struct Planes {
    pub(crate) luma: Place,
    pub(crate) u: Place,
    pub(crate) v: Place,
}

#[repr(C)]
pub(crate) struct Search {
    pub(crate) exhaustive: bool,
    pub(crate) search_param: i32,
}

#[repr(C)]
pub(crate) struct Weights {
    pub(crate) lambda: i32,
    pub(crate) bad_sad: i32,
}

#[repr(C)]
pub(crate) struct Level {
    pub(crate) smallest: bool,
    pub(crate) need_luma: bool,
    pub(crate) pel: i32,
}

#[repr(C)]
pub(crate) struct Settings {
    pub(crate) search: Search,
    pub(crate) weights: Weights,
    pub(crate) level: Level,
    pub(crate) block: Sides,
    pub(crate) grid: Sides,
    pub(crate) step: Sides,
    pub(crate) shift: Sides,
    pub(crate) planes: Planes,
}

#[repr(C)]
#[derive(Clone, Copy)]
pub(crate) struct Request {
    pub(crate) satd: bool,
    pub(crate) block: Sides,
    pub(crate) shift: Sides,
    pub(crate) search_param: i32,
    pub(crate) pnew: i32,
    pub(crate) pel: i32,
    pub(crate) source: Planes,
    pub(crate) reference: Planes,
}

unsafe extern "C" {
    fn hirupango_block_cost(
        measure: i32,
        width: i32,
        height: i32,
        a: *const u8,
        a_len: usize,
        a_pitch: i32,
        b: *const u8,
        b_len: usize,
        b_pitch: i32,
        out: *mut u8,
        out_len: usize,
    ) -> u32;

    fn hirupango_serpentine_order(nx: i32, ny: i32, order: *mut i32, order_len: usize) -> u32;

    fn hirupango_plan(
        settings: Settings,
        order: *const i32,
        order_len: usize,
        vectors: *const i32,
        vectors_len: usize,
        luma: *const u8,
        luma_len: usize,
        u: *const u8,
        u_len: usize,
        v: *const u8,
        v_len: usize,
        records: *mut i32,
        records_len: usize,
        indices: *mut i32,
        indices_len: usize,
    ) -> u32;

    fn hirupango_evaluate(
        request: Request,
        records: *const i32,
        records_len: usize,
        luma: *const u8,
        luma_len: usize,
        u: *const u8,
        u_len: usize,
        v: *const u8,
        v_len: usize,
        reference_luma: *const u8,
        reference_luma_len: usize,
        reference_u: *const u8,
        reference_u_len: usize,
        reference_v: *const u8,
        reference_v_len: usize,
        bests: *mut i32,
        bests_len: usize,
    ) -> u32;
}

// The exported functions take every number and every slice; the slices outlive each call.

pub(crate) fn port_cost(satd: bool, width: usize, height: usize, a: &[u8], a_pitch: usize, b: &[u8], b_pitch: usize) -> u32 {
    let mut out = [0u8; 4];
    let number = unsafe {
        hirupango_block_cost(
            i32::from(satd),
            width as i32,
            height as i32,
            a.as_ptr(),
            a.len(),
            a_pitch as i32,
            b.as_ptr(),
            b.len(),
            b_pitch as i32,
            out.as_mut_ptr(),
            out.len(),
        )
    };
    assert_eq!(number, 0);
    u32::from_le_bytes(out)
}

pub(crate) fn port_order(grid: Sides) -> Vec<i32> {
    let mut order = vec![0; 2 * (grid.x * grid.y) as usize];
    let number = unsafe { hirupango_serpentine_order(grid.x, grid.y, order.as_mut_ptr(), order.len()) };
    assert_eq!(number, 0);
    order
}

pub(crate) fn port_records(settings: Settings, order: &[i32], vectors: &[i32], source: &[Vec<u8>; 3]) -> Vec<i32> {
    let blocks = order.len() / 2;
    let (mut records, mut indices) = (vec![0; 12 * blocks], vec![0; blocks]);
    let [luma, u, v] = source;
    let number = unsafe {
        hirupango_plan(
            settings,
            order.as_ptr(),
            order.len(),
            vectors.as_ptr(),
            vectors.len(),
            luma.as_ptr(),
            luma.len(),
            u.as_ptr(),
            u.len(),
            v.as_ptr(),
            v.len(),
            records.as_mut_ptr(),
            records.len(),
            indices.as_mut_ptr(),
            indices.len(),
        )
    };
    assert_eq!(number, 0);
    records
}

pub(crate) fn port_bests(request: Request, records: &[i32], source: &[Vec<u8>; 3], reference: &[Vec<u8>; 3]) -> Vec<i32> {
    let mut bests = vec![0; records.len() / 12 * NUMBERS];
    let [luma, u, v] = source;
    let [reference_luma, reference_u, reference_v] = reference;
    let number = unsafe {
        hirupango_evaluate(
            request,
            records.as_ptr(),
            records.len(),
            luma.as_ptr(),
            luma.len(),
            u.as_ptr(),
            u.len(),
            v.as_ptr(),
            v.len(),
            reference_luma.as_ptr(),
            reference_luma.len(),
            reference_u.as_ptr(),
            reference_u.len(),
            reference_v.as_ptr(),
            reference_v.len(),
            bests.as_mut_ptr(),
            bests.len(),
        )
    };
    assert_eq!(number, 0);
    bests
}

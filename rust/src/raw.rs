//! The library's functions as they stand in include/tashvelun.h. A slice is a pointer and a length.

#[repr(C)]
pub struct TvReport {
    pub given: u64,
    pub limit: u64,
    pub answer: u8,
    pub component: u8,
}

extern "C" {
    pub fn tv_dquant(coef: *mut i16, coef_len: usize, log2_w: usize, log2_h: usize, scale: i32, offset: i32, shift: u8) -> u8;

    pub fn tv_itxb0(src: *const i16, src_len: usize, dst: *mut i32, dst_len: usize, log2_size: usize, log2_line: usize) -> u8;

    pub fn tv_itxb1(src: *const i32, src_len: usize, dst: *mut i16, dst_len: usize, log2_size: usize, log2_line: usize, shift: u8) -> u8;

    pub fn tv_job(
        coef: *mut i16, coef_len: usize, start: usize, log2_w: usize, log2_h: usize, qp: u8, offset: i32, dq_shift: u8, it_shift: u8,
    ) -> u8;

    pub fn tv_sub_block(
        coef: *mut i16, coef_len: usize, log2_w: usize, log2_h: usize, offset: i32, dq_shift: u8, it_shift: u8, flag_y: u8, flag_u: u8,
        flag_v: u8, start_y: usize, start_u: usize, start_v: usize, qp_y: u8, qp_u: u8, qp_v: u8, component: *mut u8,
    ) -> u8;

    pub fn tv_job_reported(
        coef: *mut i16, coef_len: usize, start: usize, log2_w: usize, log2_h: usize, qp: u8, offset: i32, dq_shift: u8, it_shift: u8,
    ) -> TvReport;

    pub fn tv_sub_block_reported(
        coef: *mut i16, coef_len: usize, log2_w: usize, log2_h: usize, offset: i32, dq_shift: u8, it_shift: u8, flag_y: u8, flag_u: u8,
        flag_v: u8, start_y: usize, start_u: usize, start_v: usize, qp_y: u8, qp_u: u8, qp_v: u8,
    ) -> TvReport;

    pub fn tv_diff(
        org: *const u16, org_len: usize, width: usize, height: usize, stride: usize, x: usize, y: usize, log2_w: usize, log2_h: usize,
        cur: *const u16, cur_len: usize, depth: u8, diff: *mut i16, diff_len: usize,
    ) -> u8;

    pub fn tv_satd(
        org: *const u16, org_len: usize, width: usize, height: usize, stride: usize, x: usize, y: usize, w: usize, h: usize,
        cur: *const u16, cur_len: usize, depth: u8, value: *mut u32,
    ) -> u8;

    pub fn tv_ssd_16b(
        org: *const u16, org_len: usize, width: usize, height: usize, stride: usize, x: usize, y: usize, log2_w: usize, log2_h: usize,
        cur: *const u16, cur_len: usize, depth: u8, value: *mut i64,
    ) -> u8;

    pub fn tv_ssd_16i(
        one: *const u16, one_len: usize, width1: usize, height1: usize, stride1: usize, two: *const u16, two_len: usize, width2: usize,
        height2: usize, stride2: usize, x: i16, y: i16, log2_w: usize, log2_h: usize, depth: u8, value: *mut i64,
    ) -> u8;

    pub fn tv_sad_16b(
        org: *const u16, org_len: usize, width: usize, height: usize, stride: usize, x: usize, y: usize, reference: *const u16,
        reference_len: usize, ref_width: usize, ref_height: usize, ref_stride: usize, mv_x: i16, mv_y: i16, w: usize, h: usize, depth: u8,
        value: *mut u32,
    ) -> u8;

    pub fn tv_sad_bi_16b(
        bi: *const i16, bi_len: usize, reference: *const u16, reference_len: usize, ref_width: usize, ref_height: usize,
        ref_stride: usize, mv_x: i16, mv_y: i16, w: usize, h: usize, depth: u8, value: *mut u32,
    ) -> u8;

    pub fn tv_sad_16i(
        org: *const u16, org_len: usize, width: usize, height: usize, stride: usize, x: usize, y: usize, w: usize, h: usize,
        pred: *const u16, pred_len: usize, depth: u8, value: *mut u32,
    ) -> u8;

    pub fn tv_sad_bi_16i(
        bi: *const i16, bi_len: usize, pred: *const u16, pred_len: usize, w: usize, h: usize, depth: u8, value: *mut u32,
    ) -> u8;
}

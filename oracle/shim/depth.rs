// The Rust at one depth: the texts of itdq.rs, enc/sad.rs, region.rs and tbl.rs of a checkout of revcx/revc, taken in unchanged by `include!`,
// over thin stand-ins for the few things that they lean on. ../revc.sh builds this file once for each depth 8..14; it hands over ORACLE_DEPTH, REVC
// and GEN (a folder with the lines cut out of files that don't build here as a whole) in the environment of rustc.
#![allow(warnings)]

// tbl.rs uses lazy_static for scan and quantizer tables alone, which nothing here reaches: the stand-in swallows them
macro_rules! lazy_static { ($($t:tt)*) => {}; }

pub mod def {
    // the constants and types of def.rs that are asked for; BIT_DEPTH isn't among them
    include!(concat!(env!("GEN"), "/def_part.rs"));
    const fn number(s: &str) -> usize {
        let b = s.as_bytes();
        let mut i = 0;
        let mut n = 0usize;
        while i < b.len() {
            n = n * 10 + (b[i] - b'0') as usize;
            i += 1;
        }
        n
    }
    pub const BIT_DEPTH: usize = number(env!("ORACLE_DEPTH"));
}
pub mod api {
    include!(concat!(env!("GEN"), "/api_part.rs"));
    pub mod frame {
        use std::mem::MaybeUninit;
        // Align64 and Aligned of api/frame.rs
        include!(concat!(env!("GEN"), "/frame_part.rs"));
        // the trait comes from a crate that revc leans on
        pub trait Pixel: Copy + std::fmt::Debug {}
        impl Pixel for u16 {}
        impl Pixel for u8 {}
    }
}
pub mod util {}
pub mod tracer {
    pub type Tracer = ();
    #[inline]
    pub fn TRACE_RESI(_t: &mut Option<Tracer>, _ch: usize, _w: usize, _h: usize, _r: &[i16]) {}
}
pub mod tbl {
    include!(concat!(env!("REVC"), "/tbl.rs"));
    // ---- nothing below is of the source
    pub fn tables() -> [&'static [i8]; 6] {
        [
            evc_tbl_tm2.as_flattened(),
            evc_tbl_tm4.as_flattened(),
            evc_tbl_tm8.as_flattened(),
            evc_tbl_tm16.as_flattened(),
            evc_tbl_tm32.as_flattened(),
            evc_tbl_tm64.as_flattened(),
        ]
    }
    pub fn scales() -> &'static [i16; 6] {
        &evc_tbl_dq_scale_b
    }
}
pub mod plane {
    use super::api::frame::*;
    use super::region::*;
    // PlaneConfig and PlaneOffset of plane.rs
    include!(concat!(env!("GEN"), "/plane_part.rs"));
    /// Samples that the caller owns, in place of the heap block of plane.rs.
    pub struct PlaneData<T: Pixel> {
        pub ptr: *const T,
    }
    impl<T: Pixel> PlaneData<T> {
        #[inline]
        pub fn as_ptr(&self) -> *const T {
            self.ptr
        }
        #[inline]
        pub fn as_mut_ptr(&self) -> *mut T {
            self.ptr as *mut T
        }
    }
    pub struct Plane<T: Pixel> {
        pub data: PlaneData<T>,
        pub cfg: PlaneConfig,
    }
    impl<T: Pixel> Plane<T> {
        /// A plane over lent samples; the caller sees to it that they are there.
        pub fn over(s: &[T], width: usize, height: usize, stride: usize) -> Self {
            Plane { data: PlaneData { ptr: s.as_ptr() }, cfg: PlaneConfig { stride, alloc_height: height, width, height, ..Default::default() } }
        }
        pub fn whole(&self) -> PlaneRegion<'_, T> {
            PlaneRegion::new(self, Rect { x: 0, y: 0, width: self.cfg.width, height: self.cfg.height })
        }
    }
}
pub mod region {
    include!(concat!(env!("REVC"), "/region.rs"));
}
pub mod itdq {
    include!(concat!(env!("REVC"), "/itdq.rs"));
    // ---- nothing below is of the source: faces for its private functions
    pub fn dquant(coef: &mut [i16], log2_w: usize, log2_h: usize, scale: i32, offset: i32, shift: u8) {
        evc_dquant(coef, log2_w, log2_h, scale, offset, shift)
    }
    pub fn stage_one(src: &[i16], dst: &mut [i32], log2_size: usize, log2_line: usize) {
        tbl_itxb0[log2_size - 1](src, dst, log2_line)
    }
    pub fn stage_two(src: &[i32], dst: &mut [i16], log2_size: usize, log2_line: usize, shift: u8) {
        tbl_itxb1[log2_size - 1](src, dst, shift as usize, log2_line)
    }
    /// The scale as the sub-block call forms it.
    pub fn scale(qp: u8) -> i32 {
        (evc_tbl_dq_scale_b[qp as usize % 6] as i32) << (qp / 6) as i32
    }
    /// Document 01's job: the dequantizer and the two stages, one after the other.
    pub fn job(coef: &mut [i16], start: usize, log2_w: usize, log2_h: usize, qp: u8, offset: i32, dq_shift: u8, it_shift: u8) {
        let area = &mut coef[start..start + (1 << (log2_w + log2_h))];
        let mut between = [0i32; MAX_TR_DIM];
        dquant(area, log2_w, log2_h, scale(qp), offset, dq_shift);
        stage_one(area, &mut between, log2_h, log2_w);
        stage_two(&between, area, log2_w, log2_h, it_shift);
    }
    /// The source's own sub-block call: its components start at 0, 4096 and 5120, and its driver picks offset and shifts.
    pub fn sub_block(coef: &mut [i16], log2_w: u8, log2_h: u8, qp: [u8; 3], flag: &[bool; 3]) {
        evc_sub_block_itdq2(&mut None, coef, log2_w, log2_h, qp[0], qp[1], qp[2], flag)
    }
}
pub mod enc {
    pub mod sad {
        include!(concat!(env!("REVC"), "/enc/sad.rs"));
        // ---- nothing below is of the source: faces for its crate-private functions
        type Region<'a> = PlaneRegion<'a, pel>;
        pub fn satd(x: usize, y: usize, w: usize, h: usize, org: &Region, cur: &[pel]) -> u32 {
            evce_satd_16b(x, y, w, h, org, cur)
        }
        pub fn diff(x: usize, y: usize, log2_w: usize, log2_h: usize, org: &Region, cur: &[pel], diff: &mut [i16]) {
            evce_diff_16b(x, y, log2_w, log2_h, org, cur, diff)
        }
        pub fn ssd_16b(x: usize, y: usize, log2_w: usize, log2_h: usize, org: &Region, cur: &[pel]) -> i64 {
            evce_ssd_16b(x, y, log2_w, log2_h, org, cur)
        }
        pub fn ssd_16i(x: i16, y: i16, log2_w: usize, log2_h: usize, one: &Region, two: &Region) -> i64 {
            evce_ssd_16i(x, y, log2_w, log2_h, one, two)
        }
        pub fn sad_16b(x: usize, y: usize, mv_x: i16, mv_y: i16, w: usize, h: usize, org: &Region, reference: &Region) -> u32 {
            evce_sad_16b(x, y, mv_x, mv_y, w, h, org, reference)
        }
        pub fn sad_bi_16b(mv_x: i16, mv_y: i16, w: usize, h: usize, bi: &[i16], reference: &Region) -> u32 {
            evce_sad_bi_16b(mv_x, mv_y, w, h, bi, reference)
        }
        pub fn sad_16i(x: usize, y: usize, w: usize, h: usize, org: &Region, pred: &[pel]) -> u32 {
            evce_sad_16i(x, y, w, h, org, pred)
        }
        pub fn sad_bi_16i(w: usize, h: usize, bi: &[i16], pred: &[pel]) -> u32 {
            evce_sad_bi_16i(w, h, bi, pred)
        }
    }
}

// The unchanged Rust, built once for each depth measured (../../oracle/shim/depth.rs), behind one trait, so that a case is written once. Every call is
// resolved when this is compiled: nothing stands between the case and the Rust's own function but a plain call.

pub trait Rust: 'static {
    const DEPTH: u8;
    type Region: 'static;
    fn region(samples: &'static [u16], width: usize, height: usize, stride: usize) -> Self::Region;
    fn scale(qp: u8) -> i32;
    fn dquant(coef: &mut [i16], log2_w: usize, log2_h: usize, scale: i32, offset: i32, shift: u8);
    fn itxb0(src: &[i16], dst: &mut [i32], log2_size: usize, log2_line: usize);
    fn itxb1(src: &[i32], dst: &mut [i16], log2_size: usize, log2_line: usize, shift: u8);
    /// the source's own driver, which picks offset and shifts
    fn itdq(coef: &mut [i16], log2_w: usize, log2_h: usize, scale: i32);
    fn sub_block(coef: &mut [i16], log2_w: u8, log2_h: u8, qp: [u8; 3], flag: &[bool; 3]);
    fn diff(x: usize, y: usize, log2_w: usize, log2_h: usize, org: &Self::Region, cur: &[u16], diff: &mut [i16]);
    fn satd(x: usize, y: usize, w: usize, h: usize, org: &Self::Region, cur: &[u16]) -> u32;
    fn ssd_16b(x: usize, y: usize, log2_w: usize, log2_h: usize, org: &Self::Region, cur: &[u16]) -> i64;
    fn ssd_16i(x: i16, y: i16, log2_w: usize, log2_h: usize, one: &Self::Region, two: &Self::Region) -> i64;
    #[allow(clippy::too_many_arguments)]
    fn sad_16b(x: usize, y: usize, mv_x: i16, mv_y: i16, w: usize, h: usize, org: &Self::Region, reference: &Self::Region) -> u32;
    fn sad_bi_16b(mv_x: i16, mv_y: i16, w: usize, h: usize, bi: &[i16], reference: &Self::Region) -> u32;
    fn sad_16i(x: usize, y: usize, w: usize, h: usize, org: &Self::Region, pred: &[u16]) -> u32;
    fn sad_bi_16i(w: usize, h: usize, bi: &[i16], pred: &[u16]) -> u32;
}

macro_rules! at_depth {
    ($name:ident, $depth:literal, $o:ident) => {
        pub struct $name;
        impl Rust for $name {
            const DEPTH: u8 = $depth;
            type Region = $o::region::PlaneRegion<'static, u16>;
            fn region(samples: &'static [u16], width: usize, height: usize, stride: usize) -> Self::Region {
                Box::leak(Box::new($o::plane::Plane::over(samples, width, height, stride))).whole()
            }
            fn scale(qp: u8) -> i32 {
                $o::itdq::scale(qp)
            }
            #[inline(always)]
            fn dquant(coef: &mut [i16], log2_w: usize, log2_h: usize, scale: i32, offset: i32, shift: u8) {
                $o::itdq::dquant(coef, log2_w, log2_h, scale, offset, shift)
            }
            #[inline(always)]
            fn itxb0(src: &[i16], dst: &mut [i32], log2_size: usize, log2_line: usize) {
                $o::itdq::stage_one(src, dst, log2_size, log2_line)
            }
            #[inline(always)]
            fn itxb1(src: &[i32], dst: &mut [i16], log2_size: usize, log2_line: usize, shift: u8) {
                $o::itdq::stage_two(src, dst, log2_size, log2_line, shift)
            }
            #[inline(always)]
            fn itdq(coef: &mut [i16], log2_w: usize, log2_h: usize, scale: i32) {
                $o::itdq::evc_itdq(coef, log2_w, log2_h, scale)
            }
            #[inline(always)]
            fn sub_block(coef: &mut [i16], log2_w: u8, log2_h: u8, qp: [u8; 3], flag: &[bool; 3]) {
                $o::itdq::sub_block(coef, log2_w, log2_h, qp, flag)
            }
            #[inline(always)]
            fn diff(x: usize, y: usize, log2_w: usize, log2_h: usize, org: &Self::Region, cur: &[u16], diff: &mut [i16]) {
                $o::enc::sad::diff(x, y, log2_w, log2_h, org, cur, diff)
            }
            #[inline(always)]
            fn satd(x: usize, y: usize, w: usize, h: usize, org: &Self::Region, cur: &[u16]) -> u32 {
                $o::enc::sad::satd(x, y, w, h, org, cur)
            }
            #[inline(always)]
            fn ssd_16b(x: usize, y: usize, log2_w: usize, log2_h: usize, org: &Self::Region, cur: &[u16]) -> i64 {
                $o::enc::sad::ssd_16b(x, y, log2_w, log2_h, org, cur)
            }
            #[inline(always)]
            fn ssd_16i(x: i16, y: i16, log2_w: usize, log2_h: usize, one: &Self::Region, two: &Self::Region) -> i64 {
                $o::enc::sad::ssd_16i(x, y, log2_w, log2_h, one, two)
            }
            #[inline(always)]
            fn sad_16b(x: usize, y: usize, mv_x: i16, mv_y: i16, w: usize, h: usize, org: &Self::Region, reference: &Self::Region) -> u32 {
                $o::enc::sad::sad_16b(x, y, mv_x, mv_y, w, h, org, reference)
            }
            #[inline(always)]
            fn sad_bi_16b(mv_x: i16, mv_y: i16, w: usize, h: usize, bi: &[i16], reference: &Self::Region) -> u32 {
                $o::enc::sad::sad_bi_16b(mv_x, mv_y, w, h, bi, reference)
            }
            #[inline(always)]
            fn sad_16i(x: usize, y: usize, w: usize, h: usize, org: &Self::Region, pred: &[u16]) -> u32 {
                $o::enc::sad::sad_16i(x, y, w, h, org, pred)
            }
            #[inline(always)]
            fn sad_bi_16i(w: usize, h: usize, bi: &[i16], pred: &[u16]) -> u32 {
                $o::enc::sad::sad_bi_16i(w, h, bi, pred)
            }
        }
    };
}

at_depth!(Depth8, 8, depth8);
at_depth!(Depth10, 10, depth10);
at_depth!(Depth14, 14, depth14);

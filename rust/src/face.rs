//! The C declarations of include/kyzgultam.h.

#[cfg(kz_levels)]
use crate::level::{running, Level};
use crate::PictureSettings;

#[repr(C)]
pub struct EncoderSettings {
    pub picture: PictureSettings,
    pub hidden_size: usize,
    pub num_heads: usize,
    pub head_dim: usize,
    pub num_layers: usize,
    pub intermediate_size: usize,
    pub text_hidden_size: usize,
    pub projector_bias: usize,
    pub scaling: f32,
}

impl From<&crate::EncoderSettings> for EncoderSettings {
    fn from(s: &crate::EncoderSettings) -> Self {
        EncoderSettings {
            picture: s.picture,
            hidden_size: s.hidden_size,
            num_heads: s.num_heads,
            head_dim: s.head_dim,
            num_layers: s.num_layers,
            intermediate_size: s.intermediate_size,
            text_hidden_size: s.text_hidden_size,
            projector_bias: s.projector_bias.into(),
            scaling: s.scaling,
        }
    }
}

impl From<EncoderSettings> for crate::EncoderSettings {
    fn from(s: EncoderSettings) -> Self {
        crate::EncoderSettings {
            picture: s.picture,
            hidden_size: s.hidden_size,
            num_heads: s.num_heads,
            head_dim: s.head_dim,
            num_layers: s.num_layers,
            intermediate_size: s.intermediate_size,
            text_hidden_size: s.text_hidden_size,
            projector_bias: s.projector_bias != 0,
            scaling: s.scaling,
        }
    }
}

#[repr(C)]
pub struct PreprocessReport {
    pub number: u32,
    pub grid_h: usize,
    pub grid_w: usize,
    pub floats: usize,
}

#[repr(C)]
pub struct RestoreReport {
    pub number: u32,
    pub height: usize,
    pub width: usize,
}

#[repr(C)]
pub struct SalvageReport {
    pub number: u32,
    pub height: usize,
    pub width: usize,
    pub bad: usize,
}

#[repr(C)]
pub struct PatchPlace {
    pub start: usize,
    pub len: usize,
}

#[repr(C)]
pub struct CutReport {
    pub number: u32,
    pub side: usize,
    pub rows: usize,
    pub columns: usize,
}

#[repr(C)]
pub struct TileReport {
    pub number: u32,
    pub grid_h: usize,
    pub grid_w: usize,
    pub floats: usize,
    pub top: usize,
    pub left: usize,
    pub height: usize,
    pub width: usize,
}

#[repr(C)]
pub struct ForwardReport {
    pub number: u32,
    pub tokens: usize,
}

#[repr(C)]
pub struct LengthsReport {
    pub number: u32,
    pub patches: usize,
    pub weights: usize,
    pub tables: usize,
    pub axes: usize,
    pub scratch: usize,
    pub out: usize,
}

#[repr(C)]
pub struct ConfigReport {
    pub number: u32,
    pub place: usize,
    pub settings: EncoderSettings,
}

#[repr(C)]
pub struct WeightsReport {
    pub number: u32,
    pub floats: usize,
    pub tensor: usize,
    pub place: usize,
}

#[repr(C)]
#[derive(Clone, Copy)]
pub struct Held {
    pub key: u64,
    pub start: usize,
    pub len: usize,
}

#[repr(C)]
#[derive(Clone, Copy)]
pub struct Pool {
    pub len: usize,
    pub count: usize,
    pub held: [Held; 64],
}

#[repr(C)]
pub struct PoolReport {
    pub number: u32,
    pub pool: Pool,
}

#[repr(C)]
pub struct PoolPlace {
    pub number: u32,
    pub start: usize,
    pub len: usize,
}

/// Makes of each declaration a function that hands on to it or, where all levels are linked, to that of the running
/// level, which has the level behind its name.
macro_rules! face {
    ($(pub fn $name:ident($($given:ident: $kind:ty),* $(,)?) -> $answer:ty;)*) => {$(
        #[cfg(not(kz_levels))]
        #[allow(clippy::too_many_arguments)]
        pub unsafe fn $name($($given: $kind),*) -> $answer {
            extern "C" {
                fn $name($($given: $kind),*) -> $answer;
            }
            $name($($given),*)
        }

        #[cfg(kz_levels)]
        #[allow(clippy::too_many_arguments)]
        pub unsafe fn $name($($given: $kind),*) -> $answer {
            extern "C" {
                #[link_name = concat!(stringify!($name), "_x86_64")]
                fn x86_64($($given: $kind),*) -> $answer;
                #[link_name = concat!(stringify!($name), "_x86_64_v3")]
                fn x86_64_v3($($given: $kind),*) -> $answer;
                #[link_name = concat!(stringify!($name), "_x86_64_v4")]
                fn x86_64_v4($($given: $kind),*) -> $answer;
            }
            match running() {
                Level::X86_64 => x86_64($($given),*),
                Level::X86_64V3 => x86_64_v3($($given),*),
                Level::X86_64V4 => x86_64_v4($($given),*),
            }
        }
    )*};
}

face! {
    pub fn kz_preprocess(
        settings: PictureSettings,
        rgb: *const u8,
        rgb_len: usize,
        height: usize,
        width: usize,
        out: *mut f32,
        out_len: usize,
    ) -> PreprocessReport;

    pub fn kz_restore(
        settings: PictureSettings,
        patches: *const f32,
        patches_len: usize,
        grid_h: usize,
        grid_w: usize,
        out: *mut u8,
        out_len: usize,
    ) -> RestoreReport;

    pub fn kz_salvage(
        settings: PictureSettings,
        patches: *const u32,
        patches_len: usize,
        grid_h: usize,
        grid_w: usize,
        out: *mut u8,
        out_len: usize,
        list: *mut u32,
        list_len: usize,
    ) -> SalvageReport;

    pub fn kz_patch(patches: *const f32, patches_len: usize, patch_size: usize, i: usize) -> PatchPlace;

    pub fn kz_cut(settings: PictureSettings, height: usize, width: usize) -> CutReport;

    pub fn kz_preprocess_tile(
        settings: PictureSettings,
        rgb: *const u8,
        rgb_len: usize,
        height: usize,
        width: usize,
        index: usize,
        out: *mut f32,
        out_len: usize,
    ) -> TileReport;

    pub fn kz_restore_tile(
        settings: PictureSettings,
        patches: *const f32,
        patches_len: usize,
        height: usize,
        width: usize,
        index: usize,
        out: *mut u8,
        out_len: usize,
    ) -> TileReport;

    pub fn kz_forward(
        settings: EncoderSettings,
        patches: *const f32,
        patches_len: usize,
        grid_h: usize,
        grid_w: usize,
        weights: *const f32,
        weights_len: usize,
        rope_cos: *const f32,
        rope_cos_len: usize,
        rope_sin: *const f32,
        rope_sin_len: usize,
        scratch: *mut f32,
        scratch_len: usize,
        out: *mut f32,
        out_len: usize,
    ) -> ForwardReport;

    pub fn kz_forward_axes(
        settings: EncoderSettings,
        patches: *const f32,
        patches_len: usize,
        grid_h: usize,
        grid_w: usize,
        weights: *const f32,
        weights_len: usize,
        row_cos: *const f32,
        row_cos_len: usize,
        row_sin: *const f32,
        row_sin_len: usize,
        column_cos: *const f32,
        column_cos_len: usize,
        column_sin: *const f32,
        column_sin_len: usize,
        scratch: *mut f32,
        scratch_len: usize,
        out: *mut f32,
        out_len: usize,
    ) -> ForwardReport;

    pub fn kz_forward_plain(
        settings: EncoderSettings,
        patches: *const f32,
        patches_len: usize,
        grid_h: usize,
        grid_w: usize,
        weights: *const f32,
        weights_len: usize,
        rope_cos: *const f32,
        rope_cos_len: usize,
        rope_sin: *const f32,
        rope_sin_len: usize,
        scratch: *mut f32,
        scratch_len: usize,
        out: *mut f32,
        out_len: usize,
    ) -> ForwardReport;

    pub fn kz_lengths(settings: EncoderSettings, grid_h: usize, grid_w: usize) -> LengthsReport;

    pub fn kz_config(lent: EncoderSettings, text: *const u8, text_len: usize) -> ConfigReport;

    pub fn kz_weights(
        settings: EncoderSettings,
        file: *const u8,
        file_len: usize,
        weights: *mut f32,
        weights_len: usize,
    ) -> WeightsReport;

    pub fn kz_pool_new(len: usize) -> Pool;

    pub fn kz_pool_add(
        pool: Pool,
        slice: *mut f32,
        slice_len: usize,
        key: u64,
        vectors: *const f32,
        vectors_len: usize,
    ) -> PoolReport;

    pub fn kz_pool_find(pool: Pool, slice: *const f32, slice_len: usize, key: u64) -> PoolPlace;

    pub fn kz_pool_drop(pool: Pool, slice: *const f32, slice_len: usize, key: u64) -> PoolReport;

    pub fn kz_bf16(x: u32) -> u32;
    pub fn kz_half(h: u16) -> u32;
    pub fn kz_root(x: u32) -> u32;
    pub fn kz_exp(x: u32) -> u32;
    pub fn kz_tanh(y: u32) -> u32;

    pub fn kz_bf16_pack(x: u32) -> u16;
    pub fn kz_bf16_widen(b: u16) -> u32;
    pub fn kz_bf16_pack_all(x: *const u32, x_len: usize, out: *mut u16, out_len: usize) -> usize;
    pub fn kz_bf16_widen_all(b: *const u16, b_len: usize, out: *mut u32, out_len: usize) -> usize;

    pub fn kz_version() -> u32;
    pub fn kz_number_version() -> u32;
}

//! Stub: the settings of a voice, as `pipeline` reads them.

pub struct VoiceParams {
    pub segment_duration_model: bool,
    pub f0_target_model: bool,
    pub fold_ah_to_aa: bool,
    pub duration_stretch: f32,
    pub int_f0_target_mean: f32,
    pub int_f0_target_stddev: f32,
    pub f0_shift: f32,
}

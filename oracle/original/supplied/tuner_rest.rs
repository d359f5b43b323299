// What docs/src/src/tuner.rs lacks: the path, the board's orchestrator, and the trait (signatures read off
// `impl Tuner for R82xx`).

#[derive(Debug, Clone, Copy, PartialEq, Eq)]
pub enum InputPath {
    Hf,
    Vhf,
    Uhf,
}

impl BoardConfig {
    pub fn orchestrator(&self) -> Box<dyn BoardOrchestrator> {
        match self {
            BoardConfig::Generic => Box::new(GenericOrchestrator),
            BoardConfig::BlogV4 => Box::new(V4Orchestrator),
        }
    }
}

pub trait Tuner: Send + Sync {
    fn initialize(&self) -> Result<()>;
    fn set_frequency(&self, hz: u64) -> Result<u64>;
    fn set_gain(&self, db: f32) -> Result<f32>;
    fn get_gain(&self) -> Result<f32>;
    fn get_filters(&self) -> Vec<FilterRange>;
    fn set_if_freq(&self, hz: u64) -> Result<()>;
    fn get_if_freq(&self) -> u64;
    fn set_bandwidth(&self, hz: u32) -> Result<()>;
    fn set_ppm(&self, ppm: i32) -> Result<()>;
    fn apply_notch(&self, in_notch_band: bool) -> Result<()>;
    fn set_gain_by_index(&self, idx: usize) -> Result<f32>;
    fn get_gain_table(&self) -> Vec<i32>;
    fn set_input_path(&self, path: InputPath) -> Result<()>;
}

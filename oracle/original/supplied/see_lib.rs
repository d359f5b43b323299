// A Driver from its parts (the published one makes itself by probing), and its private calls.
impl Driver {
    pub fn see_make(
        device: Arc<Device<rusb::Context>>,
        tuner: Arc<dyn Tuner>,
        tuner_type: TunerType,
        board: BoardConfig,
        nominal_xtal: u32,
        ppm: i32,
        frequency: u64,
        sample_rate: u32,
    ) -> Self {
        let info = device.read_info();
        let (flush_tx, _) = broadcast::channel(16);
        let orchestrator = Arc::from(board.orchestrator());
        Self {
            device,
            info,
            tuner_type,
            tuner,
            orchestrator,
            sample_rate,
            frequency,
            ppm,
            nominal_xtal,
            stream_config: StreamConfig::default(),
            flush_tx,
        }
    }
    pub fn see_apply_input_path(&self, path: InputPath) -> Result<()> {
        self.apply_input_path(self.frequency, path)
    }
    pub fn see_corrected(&self) -> u32 {
        self.corrected_xtal_hz()
    }
}

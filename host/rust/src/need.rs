/// What a call may need of its [`Script`](crate::Script): as many outcomes and replies as its longest run has, also where a run is shorter. The calls lend
/// room by these numbers.
///
/// ```
/// use pasetone::{Error, Need, Script, Tuner, TunerKind};
///
/// let mut tuner = Tuner::new(TunerKind::R828d, 0x74, 28_800_000)?;
/// let need = Need::INITIALIZE.outcomes;
/// assert_eq!(tuner.initialize(&Script::new(vec![0; need - 1], [])).result, Err(Error::Outcomes));
/// assert_eq!(tuner.initialize(&Script::new(vec![0; need], [])).result, Ok(()));
/// # Ok::<(), Error>(())
/// ```
#[derive(Clone, Copy, Debug, PartialEq, Eq, Hash)]
pub struct Need {
    /// Outcomes: the most entries that the call makes.
    pub outcomes: usize,
    /// Replies: the most bytes that it reads.
    pub replies: usize,
}

impl Need {
    const fn of(outcomes: usize, replies: usize) -> Need {
        Need { outcomes, replies }
    }

    /// [`Tuner::initialize`](crate::Tuner::initialize).
    pub const INITIALIZE: Need = Need::of(19, 0);
    /// [`Tuner::set_frequency`](crate::Tuner::set_frequency).
    pub const TUNE: Need = Need::of(53, 35);
    /// [`Driver::tune_board`](crate::Driver::tune_board): no call needs more.
    pub const TUNE_BOARD: Need = Need::of(64, 38);
    /// [`Tuner::set_gain`](crate::Tuner::set_gain) and [`Tuner::set_gain_by_index`](crate::Tuner::set_gain_by_index).
    pub const GAIN: Need = Need::of(7, 0);
    /// [`Tuner::set_bandwidth`](crate::Tuner::set_bandwidth).
    pub const BANDWIDTH: Need = Need::of(3, 0);
    /// [`Tuner::set_if_freq`](crate::Tuner::set_if_freq).
    pub const IF_FREQ: Need = Need::of(4, 0);
    /// [`Tuner::set_input_path`](crate::Tuner::set_input_path) on an R828D; an R820T needs nothing.
    pub const INPUT_PATH: Need = Need::of(4, 0);
    /// [`Tuner::apply_input_path`](crate::Tuner::apply_input_path).
    pub const BOARD_PATH: Need = Need::of(10, 3);
    /// [`Tuner::reload`](crate::Tuner::reload).
    pub const RELOAD: Need = Need::of(9, 0);
    /// [`Driver::set_sample_rate`](crate::Driver::set_sample_rate).
    pub const SAMPLE_RATE: Need = Need::of(17, 0);
    /// [`demod::init_baseband`](crate::demod::init_baseband) and [`demod::power_on`](crate::demod::power_on).
    pub const BASEBAND: Need = Need::of(45, 0);
    /// Reset, low IF, zero IF, start and stop streaming of [`demod`](crate::demod).
    pub const DEMOD_PAIR: Need = Need::of(2, 0);
    /// [`demod::write_reg_direct`](crate::demod::write_reg_direct).
    pub const DIRECT: Need = Need::of(1, 0);
    /// [`demod::set_if_freq_xtal`](crate::demod::set_if_freq_xtal).
    pub const IF_XTAL: Need = Need::of(3, 0);
    /// [`demod::set_sample_rate_xtal`](crate::demod::set_sample_rate_xtal).
    pub const RATE_XTAL: Need = Need::of(4, 0);
    /// [`gpio::set_output`](crate::gpio::set_output).
    pub const GPIO_OUTPUT: Need = Need::of(4, 2);
    /// [`gpio::set_bit`](crate::gpio::set_bit).
    pub const GPIO_BIT: Need = Need::of(2, 1);
}

use crate::{Answer, Error, InputPath, Lock, Receiver, Script, Stepped, Transcript, TuneAnswer, demod, gpio};

/// A call with its arguments, as a value: what [`State`](crate::State) keeps of the one under way. Every call with steps is here; a correction has none, and is no
/// call under way.
#[derive(Clone, Copy, Debug, PartialEq)]
pub enum Call {
    /// 1: [`Tuner::initialize`](crate::Tuner::initialize).
    Initialize,
    /// 2: [`Tuner::set_frequency`](crate::Tuner::set_frequency), in Hz.
    SetFrequency(u64),
    /// 3: [`Tuner::set_gain`](crate::Tuner::set_gain), in dB.
    SetGain(f32),
    /// 4: [`Tuner::set_gain_by_index`](crate::Tuner::set_gain_by_index).
    SetGainByIndex(u64),
    /// 5: [`Tuner::set_bandwidth`](crate::Tuner::set_bandwidth), in Hz.
    SetBandwidth(u32),
    /// 6: [`Tuner::set_if_freq`](crate::Tuner::set_if_freq), in Hz.
    SetIfFreq(u64),
    /// 7: [`Tuner::set_input_path`](crate::Tuner::set_input_path).
    SetInputPath(InputPath),
    /// 8: [`Tuner::apply_input_path`](crate::Tuner::apply_input_path).
    ApplyInputPath(InputPath),
    /// 9: [`Tuner::reload`](crate::Tuner::reload).
    Reload,
    /// 10: [`Driver::set_sample_rate`](crate::Driver::set_sample_rate), in samples a second.
    SetSampleRate(u32),
    /// 11: [`Driver::tune_board`](crate::Driver::tune_board), in Hz.
    TuneBoard(u64),
    /// 12: [`demod::init_baseband`].
    InitBaseband,
    /// 13: [`demod::power_on`].
    PowerOn,
    /// 14: [`demod::reset_demod`].
    ResetDemod,
    /// 15: [`demod::set_tuner_low_if`].
    SetTunerLowIf,
    /// 16: [`demod::set_tuner_zero_if`].
    SetTunerZeroIf,
    /// 17: [`demod::start_streaming`].
    StartStreaming,
    /// 18: [`demod::stop_streaming`].
    StopStreaming,
    /// 19: [`demod::write_reg_direct`].
    WriteRegDirect {
        /// The page.
        page: u8,
        /// The register.
        address: u16,
        /// Its byte.
        value: u8,
    },
    /// 20: [`demod::set_if_freq_xtal`].
    SetIfFreqXtal {
        /// The IF in Hz.
        hz: u32,
        /// The reference in Hz.
        xtal: u32,
    },
    /// 21: [`demod::set_sample_rate_xtal`].
    SetSampleRateXtal {
        /// Samples a second.
        rate: u32,
        /// The reference in Hz.
        xtal: u32,
    },
    /// 22: [`gpio::set_output`].
    SetGpioOutput(u8),
    /// 23: [`gpio::set_bit`].
    SetGpioBit(u8, bool),
}

/// What a [`Call`] answers. Its receiver is updated already, also where `result` is an error and steps were taken.
#[derive(Clone, Debug, PartialEq)]
#[must_use = "a call may be refused"]
pub struct Made {
    /// The call's value, or why it was refused: a tuning's Hz, a gain's 32 bits of a binary32, else 0.
    pub result: Result<u64, Error>,
    /// The steps taken, also where one of them failed.
    pub transcript: Transcript,
    /// The tries of a tuning; none for every other call.
    pub lock: Lock,
}

impl Stepped for Made {
    fn transcript(&self) -> &Transcript {
        &self.transcript
    }
}

impl From<TuneAnswer> for Made {
    fn from(TuneAnswer { result, transcript, lock }: TuneAnswer) -> Made {
        Made { result, transcript, lock }
    }
}

impl From<Answer<()>> for Made {
    fn from(answer: Answer<()>) -> Made {
        Made { result: answer.result.map(|()| 0), transcript: answer.transcript, lock: Lock::default() }
    }
}

impl From<Answer<f32>> for Made {
    fn from(answer: Answer<f32>) -> Made {
        Made { result: answer.result.map(|db| db.to_bits().into()), transcript: answer.transcript, lock: Lock::default() }
    }
}

impl Call {
    /// The bytes that a call is kept in.
    pub const SIZE: usize = 9;

    /// Its bytes: its number, then its arguments, low byte first, zeros above them.
    ///
    /// ```
    /// use pasetone::Call;
    /// assert_eq!(Call::TuneBoard(0x0102).bytes(), [11, 2, 1, 0, 0, 0, 0, 0, 0]);
    /// assert_eq!(Call::from_bytes(&Call::Reload.bytes()), Some(Call::Reload));
    /// ```
    pub fn bytes(self) -> [u8; Call::SIZE] {
        let two = |low: u32, high: u32| u64::from(low) | u64::from(high) << 32;
        let (number, argument) = match self {
            Call::Initialize => (1, 0),
            Call::SetFrequency(hz) => (2, hz),
            Call::SetGain(db) => (3, db.to_bits().into()),
            Call::SetGainByIndex(index) => (4, index),
            Call::SetBandwidth(hz) => (5, hz.into()),
            Call::SetIfFreq(hz) => (6, hz),
            Call::SetInputPath(path) => (7, path as u64),
            Call::ApplyInputPath(path) => (8, path as u64),
            Call::Reload => (9, 0),
            Call::SetSampleRate(rate) => (10, rate.into()),
            Call::TuneBoard(hz) => (11, hz),
            Call::InitBaseband => (12, 0),
            Call::PowerOn => (13, 0),
            Call::ResetDemod => (14, 0),
            Call::SetTunerLowIf => (15, 0),
            Call::SetTunerZeroIf => (16, 0),
            Call::StartStreaming => (17, 0),
            Call::StopStreaming => (18, 0),
            Call::WriteRegDirect { page, address, value } => (19, two(address.into(), u32::from(page) | u32::from(value) << 8)),
            Call::SetIfFreqXtal { hz, xtal } => (20, two(hz, xtal)),
            Call::SetSampleRateXtal { rate, xtal } => (21, two(rate, xtal)),
            Call::SetGpioOutput(gpio) => (22, gpio.into()),
            Call::SetGpioBit(gpio, high) => (23, two(gpio.into(), high.into())),
        };
        let mut bytes = [number; Call::SIZE];
        bytes[1..].copy_from_slice(&argument.to_le_bytes());
        bytes
    }

    /// The call of its bytes; `None` for bytes that are no call's.
    pub fn from_bytes(bytes: &[u8; Call::SIZE]) -> Option<Call> {
        let argument = u64::from_le_bytes(core::array::from_fn(|at| bytes[at + 1]));
        let (low, high) = (argument as u32, (argument >> 32) as u32);
        let path = || [InputPath::Hf, InputPath::Vhf, InputPath::Uhf].get(argument as usize).copied();
        let call = match bytes[0] {
            1 => Call::Initialize,
            2 => Call::SetFrequency(argument),
            3 => Call::SetGain(f32::from_bits(low)),
            4 => Call::SetGainByIndex(argument),
            5 => Call::SetBandwidth(low),
            6 => Call::SetIfFreq(argument),
            7 => Call::SetInputPath(path()?),
            8 => Call::ApplyInputPath(path()?),
            9 => Call::Reload,
            10 => Call::SetSampleRate(low),
            11 => Call::TuneBoard(argument),
            12 => Call::InitBaseband,
            13 => Call::PowerOn,
            14 => Call::ResetDemod,
            15 => Call::SetTunerLowIf,
            16 => Call::SetTunerZeroIf,
            17 => Call::StartStreaming,
            18 => Call::StopStreaming,
            19 => Call::WriteRegDirect { page: high as u8, address: low as u16, value: (high >> 8) as u8 },
            20 => Call::SetIfFreqXtal { hz: low, xtal: high },
            21 => Call::SetSampleRateXtal { rate: low, xtal: high },
            22 => Call::SetGpioOutput(low as u8),
            23 => Call::SetGpioBit(low as u8, high != 0),
            _ => return None,
        };
        Some(call).filter(|call| call.bytes() == *bytes)
    }

    /// Makes the call on a receiver. What it is refused for stands in [`Made::result`], as in the call of its name.
    pub fn make(self, receiver: &mut Receiver, script: &Script) -> Made {
        let tuner = receiver.tuner_mut();
        match self {
            Call::Initialize => tuner.initialize(script).into(),
            Call::SetFrequency(hz) => tuner.set_frequency(hz, script).into(),
            Call::SetGain(db) => tuner.set_gain(db, script).into(),
            // Above 28 every index is 28.
            Call::SetGainByIndex(index) => tuner.set_gain_by_index(usize::try_from(index).unwrap_or(usize::MAX), script).into(),
            Call::SetBandwidth(hz) => tuner.set_bandwidth(hz, script).into(),
            Call::SetIfFreq(hz) => tuner.set_if_freq(hz, script).into(),
            Call::SetInputPath(path) => tuner.set_input_path(path, script).into(),
            Call::ApplyInputPath(path) => tuner.apply_input_path(path, script).into(),
            Call::Reload => tuner.reload(script).into(),
            Call::SetSampleRate(rate) => receiver.set_sample_rate(rate, script).into(),
            Call::TuneBoard(hz) => receiver.tune(hz, script).into(),
            Call::InitBaseband => demod::init_baseband(script).into(),
            Call::PowerOn => demod::power_on(script).into(),
            Call::ResetDemod => demod::reset_demod(script).into(),
            Call::SetTunerLowIf => demod::set_tuner_low_if(script).into(),
            Call::SetTunerZeroIf => demod::set_tuner_zero_if(script).into(),
            Call::StartStreaming => demod::start_streaming(script).into(),
            Call::StopStreaming => demod::stop_streaming(script).into(),
            Call::WriteRegDirect { page, address, value } => demod::write_reg_direct(page, address, value, script).into(),
            Call::SetIfFreqXtal { hz, xtal } => demod::set_if_freq_xtal(hz, xtal, script).into(),
            Call::SetSampleRateXtal { rate, xtal } => demod::set_sample_rate_xtal(rate, xtal, script).into(),
            Call::SetGpioOutput(number) => gpio::set_output(number, script).into(),
            Call::SetGpioBit(number, high) => gpio::set_bit(number, high, script).into(),
        }
    }
}
